//! Files of 1,000,000 items, once through each function.

use bindings::Proved;
use compare::marks::Marks;
use compare::report::say_seen;
use compare::{Case, Judge, Random, calls};
use reference::Reference;
use types::layout::whole;
use types::limits::MOST_ITEMS;
use types::{Frame, Item, NUMBERS_PER_EVENT};

/// Half of the pages are counted from the first that 64 bits can name, and half
/// from the last.
fn page(number: u64) -> u64 {
    match number % 2 {
        0 => number / 2,
        _ => u64::MAX - number / 2,
    }
}

/// Skewed over 3,000 pages: hits near the front, hits far back, and misses.
/// Three in ten are writes.
fn items(count: u64) -> Vec<Item> {
    let mut random = Random::new(Random::seed() ^ 6);
    (0..count)
        .map(|time| {
            let bound = 1 + random.below(3000);
            Item {
                page: page(random.below(bound)),
                time,
                written: Marks::ThreeInTen.next(&mut random),
            }
        })
        .collect()
}

fn frame(number: u64) -> Frame {
    Frame {
        page: page(number),
        written: number.is_multiple_of(3),
    }
}

fn replay(file: &[u8], size: u64) -> Case {
    Case::Replay {
        file: file.to_vec(),
        size,
        cache: (2_900..2_900 + size + 3).map(frame).collect(),
        resident: size as usize,
        events: vec![8; NUMBERS_PER_EVENT * MOST_ITEMS as usize + 2],
    }
}

#[test]
fn a_million_items() {
    let mut judge = Judge::new(&Proved, &Reference);
    let mut random = Random::new(Random::seed());
    let items = items(MOST_ITEMS + 1);
    let file = whole(&items[..MOST_ITEMS as usize]);
    judge.insist(&Case::Check { file: file.clone() });
    for (mode, filter) in [(1, 40), (2, 300)] {
        judge.insist(&Case::Reduce {
            file: file.clone(),
            mode,
            filter,
            out: calls::noise_bytes(&mut random, file.len()),
        });
    }
    let (first, second) = items[..MOST_ITEMS as usize].split_at(400_000);
    judge.insist(&Case::Join {
        first: whole(first),
        second: whole(second),
        out: calls::noise_bytes(&mut random, file.len()),
    });
    for size in [100, 2000] {
        judge.insist(&replay(&file, size));
    }
    say_seen("full size", Random::seed(), &judge.seen);
    assert_eq!((judge.seen.cases, judge.seen.taken), (6, 6));
}

/// One item more is refused: by its header in a file, by the sum in a join.
#[test]
fn a_million_and_one() {
    let mut judge = Judge::new(&Proved, &Reference);
    let items = items(MOST_ITEMS + 1);
    judge.insist(&Case::Check {
        file: whole(&items),
    });
    let (first, second) = items.split_at(500_000);
    judge.insist(&Case::Join {
        first: whole(first),
        second: whole(second),
        out: vec![0x3C; 19_000_100],
    });
    say_seen("one too many", Random::seed(), &judge.seen);
    assert_eq!((judge.seen.refused[2], judge.seen.refused[13]), (1, 1));
}
