//! What is timed: one call with its buffers.

use crate::traces::Trace;
use std::hint::black_box;
use types::{Frame, Library, NUMBERS_PER_EVENT};

#[derive(Clone, Copy)]
pub enum Job {
    Check,
    Reduce {
        mode: u64,
        filter: u64,
    },
    Join,
    /// From a start of so many pages. More than none only where the trace is
    /// empty: a call leaves its pages to the next one.
    Replay {
        size: u64,
        resident: usize,
    },
}

/// Made once for each job and library, and neither cleared nor touched
/// between rounds: what is timed is the call alone.
pub struct Buffers {
    out: Vec<u8>,
    cache: Vec<Frame>,
    events: Vec<u64>,
}

/// Counts from the answer, so that all libraries can be seen to have done
/// the same work.
pub type Outcome = (u64, u64);

impl Job {
    /// A replay that starts with an empty cache.
    pub fn replay(size: u64) -> Job {
        Job::Replay { size, resident: 0 }
    }

    pub fn name(&self) -> String {
        match self {
            Job::Check => "check".to_string(),
            Job::Join => "join".to_string(),
            Job::Reduce { mode: 1, filter } => format!("reduce fastslim B={filter}"),
            Job::Reduce { filter, .. } => format!("reduce demand B={filter}"),
            Job::Replay { size, resident: 0 } => format!("replay K={size}"),
            Job::Replay { size, resident } => format!("replay K={size} of {resident}"),
        }
    }

    /// Buffers of exactly the size the job needs. They are filled, so that
    /// their memory is there before the first round.
    pub fn buffers(&self, trace: &Trace) -> Buffers {
        let (bytes, cache, events) = match self {
            Job::Check => (0, 0, 0),
            Job::Join | Job::Reduce { .. } => (trace.file.len(), 0, 0),
            Job::Replay { size, .. } => (0, *size, NUMBERS_PER_EVENT * trace.items as usize),
        };
        Buffers {
            out: vec![1; bytes],
            // Distinct, as a start's pages are.
            cache: (1..=cache).map(Frame::clean).collect(),
            events: vec![1; events],
        }
    }

    pub fn run(&self, library: &dyn Library, trace: &Trace, buffers: &mut Buffers) -> Outcome {
        let file = black_box(&trace.file[..]);
        let header = match *self {
            Job::Check => library.check(file),
            Job::Reduce { mode, filter } => library.reduce(file, mode, filter, &mut buffers.out),
            Job::Join => library.join(&trace.halves[0], &trace.halves[1], &mut buffers.out),
            Job::Replay { size, resident } => {
                let (cache, events) = (&mut buffers.cache, &mut buffers.events);
                let answer = library.replay(file, size, cache, resident, events);
                let summary = answer.expect("taken");
                return (summary.fetches, summary.evictions);
            }
        };
        let header = header.expect("taken");
        (header.items, header.references)
    }
}
