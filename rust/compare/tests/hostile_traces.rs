//! Traces made against the reducer's filter: pages of one bucket, places that
//! an earlier epoch has left, and more pages than its heads have numbers for.

use bindings::Proved;
use compare::buckets::{FILTER, Halves};
use compare::faulty_filter::met;
use compare::hostile_calls::{MODES, any, long, reduce};
use compare::report::{say, say_seen};
use compare::{Case, Judge, Random, traces};
use reference::Reference;
use types::layout::whole;

const CASES: u64 = 20_000;

#[test]
fn short_traces() {
    let mut random = Random::new(Random::seed() ^ 15);
    let mut judge = Judge::new(&Proved, &Reference);
    for _ in 0..CASES {
        judge.insist(&any(&mut random));
    }
    say_seen("hostile, short", Random::seed(), &judge.seen);
    assert_eq!((judge.seen.cases, judge.seen.taken), (CASES, CASES));
}

/// The digits of a number as places in a row of four.
fn digits(number: u64, length: u32) -> impl Iterator<Item = usize> {
    (0..length).map(move |place| (number >> (2 * place) & 3) as usize)
}

/// Every trace of up to seven items over four pages of one bucket, and over
/// two pages each of two: every way to meet a page around the end of an epoch.
/// The last page of all is among the four, and it and the first among the two.
#[test]
fn every_small_trace() {
    let mut random = Random::new(Random::seed() ^ 16);
    let mut judge = Judge::new(&Proved, &Reference);
    let halves = Halves::random(&mut random);
    let one = FILTER.pages_with(&mut random, u64::MAX, halves, 4);
    let two = FILTER.pages_with(&mut random, 0, halves, 2);
    let calls = [1, 2, 3].map(|filter| MODES.map(|mode| (mode, filter)));
    for pages in [&one[..], &[one[0], one[1], two[0], two[1]]] {
        for length in 0..=7 {
            for number in 0..4_u64.pow(length) {
                let row: Vec<u64> = digits(number, length).map(|digit| pages[digit]).collect();
                let file = whole(&traces::timed(&mut random, &row));
                for (mode, filter) in calls.iter().flatten() {
                    judge.insist(&Case::Reduce {
                        file: file.clone(),
                        mode: *mode,
                        filter: *filter,
                        out: vec![0xC3; file.len() + 1],
                    });
                }
            }
        }
    }
    say_seen("hostile, small", Random::seed(), &judge.seen);
    assert_eq!(judge.seen.taken, judge.seen.cases);
}

/// The heads are cleared more than once in each of these traces.
#[test]
fn beyond_the_last_number_of_a_head() {
    let mut random = Random::new(Random::seed() ^ 17);
    let mut judge = Judge::new(&Proved, &Reference);
    let (mut clears, mut long_chains, mut stale_heads) = (u64::MAX, 0, 0);
    for filter in [1, 2, 3, 10, 64, 1000, 1024] {
        for items in long(&mut random, filter) {
            for mode in MODES {
                judge.insist(&reduce(&mut random, &items, mode, filter));
            }
            let met = met(&items, filter);
            clears = clears.min(met.clears);
            long_chains += met.long_chains;
            stale_heads += met.stale_heads;
        }
    }
    say_seen("hostile, long", Random::seed(), &judge.seen);
    say(&format!(
        "in each of these: heads cleared {clears} times at least; \
         in all: {long_chains} long chains, {stale_heads} looks at stale heads"
    ));
    assert_eq!(judge.seen.taken, judge.seen.cases);
    assert!(clears > 1 && long_chains > 1_000_000 && stale_heads > 1_000_000);
}
