//! The comparison has teeth: it finds each fault of a list.

use compare::faulty::{ALL, Faulty};
use compare::report::say;
use compare::{Judge, Random, calls};
use reference::Reference;

/// Far fewer cases than the round has, so that the round is sure to find them.
const CASES: u64 = 2_000;

#[test]
fn each_fault_is_found() {
    let seed = Random::seed();
    for fault in ALL {
        let faulty = Faulty(fault);
        let mut random = Random::new(seed);
        let mut judge = Judge::new(&faulty, &Reference);
        let found = (0..CASES).position(|_| judge.judge(&calls::any(&mut random)).is_err());
        assert!(found.is_some(), "seed {seed}: {fault:?} not found");
    }
    say(&format!("faults found: seed {seed}, {} of them", ALL.len()));
}

/// The wrapper itself adds nothing: a fault of the join leaves the other
/// functions alone.
#[test]
fn a_sound_part_is_not_faulted() {
    let faulty = Faulty(compare::faulty::Fault::JoinTakesTheSmallerFilter);
    let mut random = Random::new(Random::seed());
    let mut judge = Judge::new(&faulty, &Reference);
    for _ in 0..CASES {
        judge.insist(&calls::check(&mut random));
        judge.insist(&calls::reduce(&mut random));
        judge.insist(&calls::replay(&mut random));
    }
    assert_eq!(judge.seen.cases, 3 * CASES);
}
