//! Medians of rounds in which the libraries take turns, so that whatever else
//! the machine does hits all alike.

use crate::job::{Buffers, Job, Outcome};
use crate::traces::Trace;
use bindings::Proved;
use reference::Reference;
use std::time::{Duration, Instant};
use types::Library;

/// So often a job is done in a round if its trace is as short as a clock's
/// step, or hardly longer.
const CALLS: u32 = 200;
const SHORT: u64 = 10;

/// For each library the median time of a call.
pub fn compare<const N: usize>(
    libraries: [&dyn Library; N],
    job: &Job,
    trace: &Trace,
    rounds: usize,
) -> [Duration; N] {
    let mut buffers = [(); N].map(|()| job.buffers(trace));
    let mut times = [(); N].map(|()| Vec::new());
    for round in 0..rounds {
        let mut outcomes = Vec::new();
        // Who goes first changes from round to round.
        for who in (0..N).map(|turn| (round + turn) % N) {
            let (buffers, times) = (&mut buffers[who], &mut times[who]);
            outcomes.push(timed(libraries[who], job, trace, buffers, times));
        }
        let is_same = |outcome: &Outcome| *outcome == outcomes[0];
        assert!(outcomes.iter().all(is_same), "they differ: {}", job.name());
    }
    times.map(median)
}

/// The proved library alone, for times that are compared with those of the
/// code before. The reference sees to it that the work is done.
pub fn alone(job: &Job, trace: &Trace, rounds: usize) -> Duration {
    let mut times = Vec::new();
    let mut buffers = job.buffers(trace);
    let expected = job.run(&Reference, trace, &mut buffers);
    for _ in 0..rounds {
        let outcome = timed(&Proved, job, trace, &mut buffers, &mut times);
        assert_eq!(outcome, expected, "the two differ: {}", job.name());
    }
    median(times)
}

fn timed(
    library: &dyn Library,
    job: &Job,
    trace: &Trace,
    buffers: &mut Buffers,
    times: &mut Vec<Duration>,
) -> Outcome {
    let calls = if trace.items < SHORT { CALLS } else { 1 };
    let start = Instant::now();
    for _ in 1..calls {
        job.run(library, trace, buffers);
    }
    let outcome = job.run(library, trace, buffers);
    times.push(start.elapsed() / calls);
    outcome
}

fn median(mut times: Vec<Duration>) -> Duration {
    times.sort_unstable();
    times[times.len() / 2]
}
