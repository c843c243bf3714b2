//! The comparison has teeth for writes: it finds each fault in them. What a
//! replay does shows those that break the promise on reductions; the others
//! keep it, and only the comparison call by call rules them out.

use compare::faithful::{Difference, check};
use compare::faulty_writes::{ALL, FaultyWrites, WriteFault};
use compare::recordings::Recording;
use compare::report::say;
use compare::starts::Start;
use compare::{Judge, Random, calls, traces};
use reference::Reference;

/// Far fewer than the rounds have, so that the rounds are sure to find them.
const CASES: u64 = 5_000;
const RECORDINGS: u64 = 2_000;

/// Marks that a replay does not tell from the right ones: with a cache no
/// smaller than the filter a page stays from its first item in an epoch to its
/// last, so it does not matter which of them says that it was written.
const KEEP_THE_PROMISE: [WriteFault; 3] = [
    WriteFault::MarksTheFirstKept,
    WriteFault::MarksTheLastOfItsPhase,
    WriteFault::MarksForKeptWrites,
];

/// What recordings have no calls for: damaged files, starts that are refused
/// and too little room.
const NOT_IN_RECORDINGS: [WriteFault; 3] = [
    WriteFault::TakesTagSeven,
    WriteFault::TakesAPageTwice,
    WriteFault::TakesRoomOfThree,
];

/// In which of the random calls a fault is found first.
fn found(fault: Option<WriteFault>) -> Option<usize> {
    let library = FaultyWrites(fault);
    let mut random = Random::new(Random::seed());
    let mut judge = Judge::new(&library, &Reference);
    (0..CASES as usize).find(|_| judge.judge(&calls::any(&mut random)).is_err())
}

#[test]
fn each_fault_is_found() {
    for fault in ALL {
        let case = found(Some(fault));
        let case = case.unwrap_or_else(|| panic!("{fault:?} not found"));
        say(&format!("{fault:?}: found in case {case}"));
    }
    say(&format!(
        "faults of writes found: seed {}, {} of them",
        Random::seed(),
        ALL.len()
    ));
}

/// The faults are what is found: without one, the same library differs in no
/// case from the reference.
#[test]
fn plain_marks_are_sound() {
    assert_eq!(found(None), None);
    assert_eq!(differences(None), []);
}

/// What the promise's check answers of each recording.
fn differences(fault: Option<WriteFault>) -> Vec<Difference> {
    let mut random = Random::new(Random::seed() ^ 9);
    let mut difference = |_| {
        let pages = traces::pages(&mut random);
        let pool = traces::pool(&mut random, pages);
        let recording = Recording::random(&mut random, &pool);
        let start = Start::random(&mut random, recording.largest_filter(), &pool);
        check(&FaultyWrites(fault), &recording, &start).err()
    };
    (0..RECORDINGS).filter_map(&mut difference).collect()
}

/// By the fourth number of a fetch or by the marks at the end; one, which
/// writes where nothing should be written, by that.
#[test]
fn broken_promises_are_found_in_recordings() {
    for fault in ALL {
        if KEEP_THE_PROMISE.contains(&fault) || NOT_IN_RECORDINGS.contains(&fault) {
            continue;
        }
        let found = differences(Some(fault));
        let is_shown = |difference: &Difference| match difference {
            Difference::Fetch { .. } | Difference::Marks => true,
            Difference::Rest => fault == WriteFault::ClearsMarksBeyond,
            _ => false,
        };
        assert!(!found.is_empty(), "{fault:?} not found");
        assert!(found.iter().all(is_shown), "{fault:?}: {found:?}");
    }
}

#[test]
fn other_marks_keep_the_promise() {
    for fault in KEEP_THE_PROMISE {
        assert_eq!(differences(Some(fault)), [], "{fault:?}");
    }
}
