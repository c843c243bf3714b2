//! The bounds on the stack of the reducer and of the replay, and figures for
//! all else.

use compare::report::say;
use stack::figures::{Figure, of_check, of_join, of_reduce, of_reduce_with, of_replay};
use stack::painted::PAINTED;

/// What `shkembruq_reduce` may take in all, in either mode.
const REDUCE: usize = 9 << 10;

/// What `shkembruq_replay` may take in all, from any start. With C-14 it has
/// two more columns of its own, of 36 KiB together.
const REPLAY: usize = 160 << 10;

/// Nothing takes nothing, and nothing takes more than could be measured.
fn told(figures: Result<Vec<Figure>, String>) -> Vec<Figure> {
    let figures = figures.unwrap_or_else(|error| panic!("{error}"));
    for Figure { name, depth } in &figures {
        say(&format!("stack: {name}: {depth} bytes"));
        assert!(*depth > 0 && *depth < PAINTED, "{name}: {depth}");
    }
    figures
}

fn keeps_to(bound: usize, figures: Result<Vec<Figure>, String>) {
    for Figure { name, depth } in told(figures) {
        assert!(depth <= bound, "{name}: {depth} bytes, more than {bound}");
    }
}

#[test]
fn reduce_keeps_to_nine_kibibytes() {
    keeps_to(REDUCE, of_reduce());
}

#[test]
fn replay_keeps_to_160_kibibytes() {
    keeps_to(REPLAY, of_replay());
}

/// Nothing on the stack grows with the filter: its places are there at any size.
#[test]
fn reduce_takes_the_same_with_every_filter() {
    let depths = [1, 8, 64, 1024].map(|filter| {
        let figures = told(of_reduce_with(filter));
        let depths = figures.iter().map(|figure| figure.depth);
        depths.collect::<Vec<usize>>()
    });
    assert!(depths.iter().all(|of| *of == depths[0]), "{depths:?}");
}

#[test]
fn the_other_functions_are_measured() {
    for figures in [of_check, of_join] {
        told(figures());
    }
}
