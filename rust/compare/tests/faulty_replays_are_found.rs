//! The replays made against a log have teeth: they find each fault of a log.
//! Without a fault, and with what changes no answer, they find nothing.

use compare::buckets::LOG;
use compare::faulty_replay::{ALL, FaultyReplay, HARMLESS, RecencyFault};
use compare::hostile::Pool;
use compare::replay_calls::{Plan, any};
use compare::report::say;
use compare::{Case, Judge, Random, traces};
use reference::Reference;

/// Fewer than the proved library is tried with (`replay_calls`).
const CASES: u64 = 150;

/// Plain starts and traces too short for a log to be packed.
const PLAIN_CASES: u64 = 400;

/// What shows only where the log is packed.
const ONLY_IF_PACKED: [RecencyFault; 11] = [
    RecencyFault::PackingKeepsADeadPlace,
    RecencyFault::PackingDropsTheFirst,
    RecencyFault::PackingDropsTheLast,
    RecencyFault::PackingLeavesLow,
    RecencyFault::PackingLeavesDeadBytes,
    RecencyFault::PackingLeavesHeads,
    RecencyFault::PackingLeavesLinks,
    RecencyFault::PackingLeavesChains,
    RecencyFault::PackingClearsMarks,
    RecencyFault::PackingShiftsMarks,
    RecencyFault::AppendLeavesTheDeadByte,
];

/// What shows only where pages share a bucket or a lower half.
const ONLY_IF_HOSTILE: [RecencyFault; 6] = [
    RecencyFault::AppendForgetsTheChain,
    RecencyFault::SearchCutsTheChain,
    RecencyFault::SearchTrustsTheBucket,
    RecencyFault::SearchComparesLowerHalves,
    RecencyFault::StartLooksAtHeadsAlone,
    RecencyFault::StartTakesABucketForAPage,
];

/// Random replays, and for each a start in which one page comes twice.
fn cases() -> Vec<Case> {
    let mut random = Random::new(Random::seed() ^ 30);
    let mut cases = Vec::new();
    for _ in 0..CASES {
        let mut plan = any(&mut random);
        cases.push(plan.case(&mut random));
        if plan.start.len() > 1 {
            let place = random.index(plan.start.len() - 1);
            plan.start[place] = *plan.start.last().expect("two pages");
            plan.start.rotate_left(random.index(place + 1));
            plan.row.truncate(9);
            cases.push(plan.case(&mut random));
        }
    }
    cases
}

/// Few pages side by side, as an example has them.
fn plain_cases() -> Vec<Case> {
    let mut random = Random::new(Random::seed() ^ 31);
    let mut plan = |number| {
        let size = 1 + number % 16;
        let pool = Pool::Plain.pages(LOG, &mut random, 40);
        let items = traces::items(&mut random, &pool[..1 + number as usize % 40], 2_000);
        let row = items.iter().map(|item| item.page).collect();
        let mut start: Vec<u64> = (0..random.below(size + 1)).collect();
        if let (true, [first, .., last]) = (random.once_in(10), &mut start[..]) {
            *first = *last;
        }
        Plan { size, start, row }.case(&mut random)
    };
    (0..PLAIN_CASES).map(&mut plan).collect()
}

fn is_found(fault: Option<RecencyFault>, cases: &[Case]) -> bool {
    let library = FaultyReplay(fault);
    let mut judge = Judge::new(&library, &Reference);
    cases.iter().any(|case| judge.judge(case).is_err())
}

#[test]
fn each_fault_is_found() {
    let cases = cases();
    for fault in ALL {
        assert!(is_found(Some(fault), &cases), "{fault:?} not found");
    }
    say(&format!(
        "faults of a log found: seed {}, {} of them",
        Random::seed(),
        ALL.len()
    ));
}

/// The faults are what is found: without one, the same replay differs in no
/// case from the reference; nor does it with what is no fault.
#[test]
fn a_log_of_pages_is_sound() {
    let cases = [cases(), plain_cases()].concat();
    assert!(!is_found(None, &cases));
    for change in HARMLESS {
        assert!(!is_found(Some(change), &cases), "{change:?}");
    }
}

/// Plain traces of 2,000 items over at most 40 pages find the others.
#[test]
fn plain_traces_find_eleven() {
    let cases = plain_cases();
    let missed: Vec<RecencyFault> = ALL
        .into_iter()
        .filter(|fault| !is_found(Some(*fault), &cases))
        .collect();
    assert_eq!(missed, [&ONLY_IF_PACKED[..], &ONLY_IF_HOSTILE].concat());
    assert_eq!(ALL.len() - missed.len(), 11);
}
