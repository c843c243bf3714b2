//! Check, join and the reductions, on three traces without writes and with.

use crate::job::Job;
use crate::table::{self, REFERENCE, Unit};
use crate::timing;
use crate::traces::{self, ITEMS};
use bindings::Proved;
use reference::Reference;

const FILTERS: [u64; 4] = [1, 8, 64, 1024];

pub fn run(rounds: usize) {
    println!("{ITEMS} items, median of {rounds} rounds, the two libraries taking turns.");
    println!("Buffers are made once for each line and not cleared between rounds.");
    println!("In the traces with writes three items in ten are, and the pages are the same.");
    println!("Ratio: proved time / reference time.");
    table::head(Unit::Item, &REFERENCE);
    for trace in traces::all() {
        for job in jobs() {
            let times = timing::compare([&Proved, &Reference], &job, &trace, rounds);
            table::line(Unit::Item, &trace, &job, &times);
        }
    }
}

fn jobs() -> Vec<Job> {
    let mut jobs = vec![Job::Check, Job::Join];
    for mode in [1, 2] {
        jobs.extend(FILTERS.map(|filter| Job::Reduce { mode, filter }));
    }
    jobs
}
