//! Replays on three traces, without writes and with, against two counterparts.

use crate::job::Job;
use crate::std_hash::StdHash;
use crate::table::{self, BOTH, Unit};
use crate::timing;
use crate::traces::{self, ITEMS, Trace};
use bindings::Proved;
use reference::Reference;

pub const SIZES: [u64; 7] = [1, 8, 64, 256, 1024, 2048, 4096];

pub fn run(rounds: usize) {
    println!("Replays of {ITEMS} items from an empty cache, median of {rounds} rounds, the");
    println!("three taking turns. Buffers are made once for each line and not cleared");
    println!("between rounds. Std: the reference with the hash of Rust's standard library");
    println!("in its map. In the traces with writes three items in ten are, and the pages");
    println!("are the same. Ratio: proved time / reference time.");
    table::head(Unit::Item, &BOTH);
    for trace in traces::all() {
        for size in SIZES {
            line(Unit::Item, &Job::replay(size), &trace, rounds);
        }
    }
}

/// One line of such a table.
pub fn line(unit: Unit, job: &Job, trace: &Trace, rounds: usize) {
    let times = timing::compare([&Proved, &Reference, &StdHash], job, trace, rounds);
    table::line(unit, trace, job, &times);
}
