//! How the time of a replay grows: with the cache, with the trace, and what is
//! there before the first item.

use crate::job::Job;
use crate::replay::{SIZES, line};
use crate::table::{self, BOTH, Unit};
use crate::traces::{ITEMS, looping, skewed_trace, trace};
use types::limits::LARGEST_CACHE;

pub fn run(rounds: usize) {
    println!("Growth of a replay, median of {rounds} rounds, the three taking turns.");
    with_the_cache(rounds);
    with_the_trace(rounds);
    of_a_call(rounds);
}

fn with_the_cache(rounds: usize) {
    println!("With the cache: {ITEMS} items, a loop of K pages, which are hits but for the");
    println!("first K, and one of K + 1, which are all fetches. The skewed trace of the");
    println!("part `replay` grows with the same K.");
    table::head(Unit::Item, &BOTH);
    for more in [0, 1] {
        for size in SIZES {
            line(
                Unit::Item,
                &Job::replay(size),
                &looping(size + more),
                rounds,
            );
        }
    }
}

fn with_the_trace(rounds: usize) {
    println!();
    println!("With the trace: skewed, of so many items.");
    table::head(Unit::Item, &BOTH);
    for items in [10_000, 100_000, 1_000_000] {
        let trace = skewed_trace(&format!("skewed {items}"), items);
        line(Unit::Item, &Job::replay(1024), &trace, rounds);
    }
}

fn of_a_call(rounds: usize) {
    println!();
    println!("What a call costs at least: a trace of one item from an empty cache, and an");
    println!("empty trace from a start of {LARGEST_CACHE} distinct pages. In each round a");
    println!("call is made 200 times.");
    table::head(Unit::Call, &BOTH);
    let one = trace("one item", 1, |number| number);
    for size in [1, LARGEST_CACHE] {
        line(Unit::Call, &Job::replay(size), &one, rounds);
    }
    let full = Job::Replay {
        size: LARGEST_CACHE,
        resident: LARGEST_CACHE as usize,
    };
    line(
        Unit::Call,
        &full,
        &trace("empty", 0, |number| number),
        rounds,
    );
}
