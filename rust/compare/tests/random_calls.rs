//! A long round of random calls, proved library against reference.

use bindings::Proved;
use compare::report::say_seen;
use compare::{Judge, Random, calls};
use reference::Reference;

const CASES: u64 = 200_000;

#[test]
fn both_agree_on_random_calls() {
    let seed = Random::seed();
    let mut random = Random::new(seed);
    let mut judge = Judge::new(&Proved, &Reference);
    for _ in 0..CASES {
        judge.insist(&calls::any(&mut random));
    }
    say_seen("random calls", seed, &judge.seen);
    assert_eq!(judge.seen.cases, CASES);
    assert!(judge.seen.taken > CASES / 3);
    judge.seen.insist_on_all_refusals();
    // Otherwise what is made of these would not have been shown.
    let evicted = judge.seen.evicted;
    assert!(evicted.nothing > CASES / 10);
    assert!(evicted.page_0 > CASES / 20 && evicted.last_page > CASES / 20);
}
