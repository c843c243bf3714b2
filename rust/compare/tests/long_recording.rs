//! One recording of more items than a file holds, in files of several
//! lengths, one of them full.

use bindings::Proved;
use compare::Random;
use compare::faithful::{joined, replays_as_recorded};
use compare::marks::Marks;
use compare::recordings::{Portion, Recording};
use compare::report::say;
use compare::starts::Start;
use compare::trees::Tree;
use types::limits::MOST_ITEMS;
use types::{Frame, Item};

/// Each file's items, mode and filter.
const FILES: [(usize, u64, u64); 5] = [
    (500_000, 1, 24),
    (MOST_ITEMS as usize, 2, 128),
    (1, 1, 16),
    (0, 2, 100),
    (899_999, 1, 64),
];

/// A neighbourhood of pages that moves on slowly, its first pages far more
/// often than its last, each a few times in a row; and now and then a page
/// from anywhere. Three items in ten are writes. Pages are counted from the
/// last that 64 bits can name.
fn items(random: &mut Random, count: usize) -> Vec<Item> {
    let mut page = 0;
    (0..count as u64)
        .map(|time| {
            let bound = 1 + random.below(120);
            let bound = 1 + random.below(bound);
            page = match random.below(200) {
                0 => random.below(3_000),
                1..100 => time / 5_000 * 7 % 2_900 + random.below(bound),
                _ => page,
            };
            // Pairs of equal times, one of which a cut takes apart.
            Item {
                page: u64::MAX - page,
                time: time / 2,
                written: Marks::ThreeInTen.next(random),
            }
        })
        .collect()
}

fn portions() -> Vec<Portion> {
    let mut start = 0;
    FILES
        .iter()
        .map(|&(count, mode, filter)| {
            let end = start + count;
            Portion {
                items: std::mem::replace(&mut start, end)..end,
                mode,
                filter,
            }
        })
        .collect()
}

/// From the left and from the right.
fn trees() -> [Tree; 2] {
    let file = Tree::File;
    let from_the_left = (1..FILES.len()).fold(file(0), |tree, next| Tree::join(tree, file(next)));
    let right = Tree::join(file(2), Tree::join(file(3), file(4)));
    [
        from_the_left,
        Tree::join(file(0), Tree::join(file(1), right)),
    ]
}

fn recording() -> Recording {
    let mut random = Random::new(Random::seed() ^ 10);
    let portions = portions();
    let count = portions.last().expect("there are files").items.end;
    Recording {
        items: items(&mut random, count),
        portions,
        trees: trees(),
    }
}

#[test]
fn longer_than_a_file() {
    let seed = Random::seed();
    let recording = recording();
    let references = recording.items.len() as u64;
    assert!(references > 2 * MOST_ITEMS);
    let largest = recording.largest_filter();
    let file = joined(&Proved, &recording).unwrap_or_else(|d| panic!("seed {seed}: {d:?}"));
    for size in [largest, largest + 60] {
        // Full from the start, of pages near and far.
        let frame = |place: u64| Frame {
            page: u64::MAX - 7 * place,
            written: place.is_multiple_of(2),
        };
        let start = Start {
            size,
            frames: (0..size).map(frame).collect(),
        };
        let tally = replays_as_recorded(&Proved, &recording, &file, &start)
            .unwrap_or_else(|d| panic!("seed {seed} size {size}: {d:?}"));
        say(&format!(
            "long recording: seed {seed}, references {references}, size {size}, {tally}"
        ));
        // Otherwise the test would have shown little.
        assert!(tally.items > MOST_ITEMS / 10 && tally.items < references / 2);
        assert!(tally.evictions == tally.fetches && tally.fetches > 10_000);
    }
}
