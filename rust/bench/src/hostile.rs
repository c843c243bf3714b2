//! Traces whose pages share a bucket. The reference has no such buckets, so
//! the proved library is timed alone.

use crate::hostile_traces::{REPLAY_ITEMS, of_reduce, of_replay};
use crate::job::Job;
use crate::table::{self, Unit};
use crate::timing;
use crate::traces::{ITEMS, Trace};
use types::limits::{LARGEST_CACHE, LARGEST_FILTER};

const ROUNDS: usize = 3;

pub fn run() {
    println!("Hostile traces: the proved library alone, median of {ROUNDS} rounds, to be");
    println!("compared with the same lines of other code.");
    reductions();
    replays();
}

fn reductions() {
    println!("Reductions: {ITEMS} items, whose pages all fall in one bucket of the reducer's");
    println!("filter. In the last, stride 414, they do not: it is a loop over 1,023 pages,");
    println!("every 414th from 0 on, which fall in 112 buckets, nine or ten in each.");
    table::head(Unit::Item, &[]);
    for trace in of_reduce() {
        for mode in [1, 2] {
            let filter = LARGEST_FILTER;
            line(&Job::Reduce { mode, filter }, &trace);
        }
    }
}

fn replays() {
    println!();
    println!("Replays: {REPLAY_ITEMS} items, a tenth of the others, whose pages all fall in one");
    println!("bucket of the replay's log.");
    table::head(Unit::Item, &[]);
    for size in [LARGEST_CACHE, 1024] {
        for trace in of_replay(size) {
            line(&Job::replay(size), &trace);
        }
    }
}

fn line(job: &Job, trace: &Trace) {
    let time = timing::alone(job, trace, ROUNDS);
    table::line(Unit::Item, trace, job, &[time]);
}
