//! The comparison has teeth for page 0 and for the last page: it finds each
//! fault in what becomes of them, because traces, starts and damage often have
//! them. Traces of other pages find two.

use compare::faithful::{Difference, check};
use compare::faulty_pages::{ALL, FaultyPages, PageFault};
use compare::recordings::Recording;
use compare::replay_calls::Plan;
use compare::report::say;
use compare::starts::Start;
use compare::{Case, Judge, Random, calls, hostile_calls, traces};
use reference::Reference;

/// Far fewer than the rounds have, so that the rounds are sure to find them.
const CASES: u64 = 2_000;
const RECORDINGS: u64 = 500;

/// What recordings have no calls for: damaged files and starts that are refused.
const NOT_IN_RECORDINGS: [PageFault; 2] = [
    PageFault::OverlooksAFallAtTheLastPage,
    PageFault::TakesTheLastPageTwice,
];

fn random_cases() -> Vec<Case> {
    let mut random = Random::new(Random::seed());
    (0..CASES).map(|_| calls::any(&mut random)).collect()
}

/// In which of the cases a fault is found first.
fn found(fault: Option<PageFault>, cases: &[Case]) -> Option<usize> {
    let library = FaultyPages(fault);
    let mut judge = Judge::new(&library, &Reference);
    cases.iter().position(|case| judge.judge(case).is_err())
}

#[test]
fn each_fault_is_found() {
    let cases = random_cases();
    for fault in ALL {
        let case = found(Some(fault), &cases);
        let case = case.unwrap_or_else(|| panic!("{fault:?} not found"));
        say(&format!("{fault:?}: found in case {case}"));
    }
    say(&format!(
        "faults of pages found: seed {}, {} of them",
        Random::seed(),
        ALL.len()
    ));
}

/// The faults are what is found: without one, the same library differs in no
/// case from the reference.
#[test]
fn all_pages_alike_are_sound() {
    assert_eq!(found(None, &random_cases()), None);
    assert_eq!(differences(None), []);
}

/// What the promise's check answers of each recording.
fn differences(fault: Option<PageFault>) -> Vec<Difference> {
    let mut random = Random::new(Random::seed() ^ 9);
    let mut difference = |_| {
        let pages = traces::pages(&mut random);
        let pool = traces::pool(&mut random, pages);
        let recording = Recording::random(&mut random, &pool);
        let start = Start::random(&mut random, recording.largest_filter(), &pool);
        check(&FaultyPages(fault), &recording, &start).err()
    };
    (0..RECORDINGS).filter_map(&mut difference).collect()
}

#[test]
fn broken_promises_are_found_in_recordings() {
    for fault in ALL {
        let found = differences(Some(fault));
        let is_missed = NOT_IN_RECORDINGS.contains(&fault);
        assert_eq!(found.is_empty(), is_missed, "{fault:?}: {found:?}");
    }
}

/// Reductions made against the filter have the two pages as well.
#[test]
fn hostile_traces_find_what_a_reduction_makes_of_them() {
    let mut random = Random::new(Random::seed() ^ 15);
    let cases: Vec<Case> = (0..CASES)
        .map(|_| hostile_calls::any(&mut random))
        .collect();
    for fault in [
        PageFault::RefusesTheLastPage,
        PageFault::NeverFindsTheLastPage,
        PageFault::NeverFindsPage0,
    ] {
        assert!(found(Some(fault), &cases).is_some(), "{fault:?} not found");
    }
}

/// Reductions and replays over up to 40 pages, from page 1 up, from starts of
/// the same pages.
fn cases_of_other_pages() -> Vec<Case> {
    let mut random = Random::new(Random::seed() ^ 45);
    let mut both = |number: u64| {
        let pool: Vec<u64> = (1..2 + number % 40).collect();
        let items = traces::items(&mut random, &pool, 200);
        let size = 1 + number % 16;
        let row = items.iter().map(|item| item.page).collect();
        let start = (1..=random.below(size + 1)).collect();
        [
            hostile_calls::reduce(&mut random, &items, 1 + number % 2, size),
            Plan { size, start, row }.case(&mut random),
        ]
    };
    (0..400).flat_map(&mut both).collect()
}

/// Where neither of the two pages comes, only what is made of nothing shows.
#[test]
fn other_pages_find_two() {
    let cases = cases_of_other_pages();
    let found: Vec<PageFault> = ALL
        .into_iter()
        .filter(|fault| found(Some(*fault), &cases).is_some())
        .collect();
    let expected = [
        PageFault::TellsTheLastPageForNothing,
        PageFault::CountsTheLastPageForNothing,
    ];
    assert_eq!(found, expected);
}
