//! The hostile traces have teeth: they find each fault of a filter of chains.
//! Short plain traces with a small filter find one.

use compare::buckets::FILTER;
use compare::faulty_filter::{ALL, FaultyFilter, FilterFault};
use compare::hostile::{Order, Pool};
use compare::hostile_calls::{MODES, any, long, reduce};
use compare::report::say;
use compare::{Case, Judge, Random, traces};
use reference::Reference;
use types::limits::LARGEST_FILTER;

/// Far fewer than the round has, so that the round is sure to find them.
const CASES: u64 = 2_000;

/// Faults that show only where the numbers of the heads come to their end, or
/// where items have numbers of more than two bytes.
const ONLY_IN_LONG: [FilterFault; 4] = [
    FilterFault::NeverClears,
    FilterFault::ClearsTooLate,
    FilterFault::TakesAStalePlace,
    FilterFault::NotesInTwoBytes,
];

fn short_cases() -> Vec<Case> {
    let mut random = Random::new(Random::seed() ^ 15);
    (0..CASES).map(|_| any(&mut random)).collect()
}

fn long_cases() -> Vec<Case> {
    let mut random = Random::new(Random::seed() ^ 17);
    let mut cases = Vec::new();
    for items in long(&mut random, LARGEST_FILTER) {
        cases.extend(MODES.map(|mode| reduce(&mut random, &items, mode, LARGEST_FILTER)));
    }
    cases
}

/// Few pages side by side, as an example has them, with a small filter.
fn plain_cases() -> Vec<Case> {
    let mut random = Random::new(Random::seed() ^ 20);
    let pool = Pool::Plain.pages(FILTER, &mut random, 40);
    let mut cases = Vec::new();
    for pages in 1..=pool.len() {
        let items = traces::items(&mut random, &pool[..pages], 3_000);
        cases.extend(MODES.map(|mode| reduce(&mut random, &items, mode, 8)));
    }
    let row = Order::Loop.row(&mut random, &pool[..9], 3_000);
    let items = traces::timed(&mut random, &row);
    cases.extend(MODES.map(|mode| reduce(&mut random, &items, mode, 8)));
    cases
}

fn is_found(fault: Option<FilterFault>, cases: &[Case]) -> bool {
    let library = FaultyFilter(fault);
    let mut judge = Judge::new(&library, &Reference);
    cases.iter().any(|case| judge.judge(case).is_err())
}

#[test]
fn each_fault_is_found() {
    let (short, long) = (short_cases(), long_cases());
    for fault in ALL {
        let in_short = is_found(Some(fault), &short);
        let in_long = !in_short && is_found(Some(fault), &long);
        assert!(in_short || in_long, "{fault:?} not found");
        assert_eq!(in_long, ONLY_IN_LONG.contains(&fault), "{fault:?}");
    }
    say(&format!(
        "faults of a filter found: seed {}, {} of them, {} only in long traces",
        Random::seed(),
        ALL.len(),
        ONLY_IN_LONG.len()
    ));
}

/// The faults are what is found: without one, the same reducer differs in no
/// case from the reference.
#[test]
fn a_filter_of_chains_is_sound() {
    assert!(!is_found(None, &short_cases()));
    assert!(!is_found(None, &long_cases()));
}

/// Plain traces of 3,000 items over at most 40 pages, with a filter of 8: these
/// find one fault, and nine not. What longer plain traces or larger filters
/// would find is not tried.
#[test]
fn plain_traces_find_one() {
    let cases = plain_cases();
    let found: Vec<FilterFault> = ALL
        .into_iter()
        .filter(|fault| is_found(Some(*fault), &cases))
        .collect();
    assert_eq!(found, [FilterFault::KeepsTheEpochBefore]);
}
