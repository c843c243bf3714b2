//! Replays around the places where a log of 8,192 pages is packed, which a
//! log of the same make tells.

use bindings::Proved;
use compare::buckets::LOG;
use compare::hostile::{Order, Pool};
use compare::recency::PLACES;
use compare::replay_calls::{Plan, SIZES};
use compare::report::{say, say_seen};
use compare::{Judge, Random};
use reference::Reference;

/// Long enough for three packings, from any start.
const LONGEST: usize = 3 * PLACES + 10;

/// Rows of hits once the pages are there, of fetches alone, and of both; each
/// with the pool that it is of.
fn rows(random: &mut Random, size: usize) -> [(Pool, Vec<u64>); 3] {
    let mut row = |pool: Pool, order: Order, pages: usize| {
        let pages = pool.pages(LOG, random, pages);
        (pool, order.row(random, &pages, LONGEST))
    };
    [
        row(Pool::Plain, Order::Loop, size),
        row(Pool::FromTheTop, Order::Loop, size + 1),
        row(Pool::FromTheTop, Order::Random, 2 * size),
    ]
}

/// A start of no page and one of as many as there is room for, some of which
/// come in the rows of their pool and some not.
fn starts(random: &mut Random, pool: Pool, size: usize) -> [Vec<u64>; 2] {
    let pages = pool.pages(LOG, random, size / 2 + size);
    [Vec::new(), pages[size / 2..].to_vec()]
}

/// Traces that end up to two items before and after each of three packings.
/// From an empty start these have 8,190 to 8,194 items, and about two and
/// three times as many less what is left of each packing.
#[test]
fn lengths() {
    let mut random = Random::new(Random::seed() ^ 32);
    let mut judge = Judge::new(&Proved, &Reference);
    for size in SIZES {
        for (pool, row) in rows(&mut random, size as usize) {
            for start in starts(&mut random, pool, size as usize) {
                let whole = Plan {
                    size,
                    start,
                    row: row.clone(),
                };
                let packings = whole.met().packings;
                assert_eq!(packings[0], PLACES - whole.start.len());
                for length in packings[..3].iter().flat_map(|at| at - 2..=at + 2) {
                    let row = row[..length].to_vec();
                    let plan = Plan {
                        row,
                        ..whole.clone()
                    };
                    judge.insist(&plan.case(&mut random));
                }
            }
        }
    }
    say_seen("replays, lengths", Random::seed(), &judge.seen);
    assert_eq!(judge.seen.taken, 7 * 3 * 2 * 15);
}

/// Hits, and one strange page up to eight items before or after a packing. It
/// evicts one, which in a small cache comes again soon and evicts another.
#[test]
fn evictions_around_a_packing() {
    let mut random = Random::new(Random::seed() ^ 33);
    let mut judge = Judge::new(&Proved, &Reference);
    for size in SIZES {
        for at in PLACES - 8..PLACES + 8 {
            let mut row: Vec<u64> = (0..PLACES as u64 + 30)
                .map(|number| number % size)
                .collect();
            row[at] = size;
            let plan = Plan {
                size,
                start: Vec::new(),
                row,
            };
            assert!(!plan.met().evictions.is_empty());
            judge.insist(&plan.case(&mut random));
        }
    }
    say_seen(
        "replays, evictions around a packing",
        Random::seed(),
        &judge.seen,
    );
    assert_eq!(judge.seen.taken, 7 * 16);
}

/// A cache size, and after how many items the next page is fetched. The items
/// between are hits, so that evictions go over dead places. A log of so many
/// pages has 8,192 - size places to fill, of which the second number is no
/// divisor: so an eviction comes to each of them in time.
const EVERY: [(u64, usize); 6] = [(1, 2), (2, 11), (3, 3), (63, 3), (64, 3), (4096, 3)];

#[test]
fn an_eviction_at_each_place() {
    let mut random = Random::new(Random::seed() ^ 34);
    let mut judge = Judge::new(&Proved, &Reference);
    for (size, every) in EVERY {
        for (pool, back) in [
            (Pool::Plain, 0),
            (Pool::FromTheTop, size as usize / 2),
            (Pool::Plain, size as usize - 1),
        ] {
            let count = (every + 3) * PLACES;
            let pool = pool.pages(LOG, &mut random, count);
            let row = Order::Spread { every, back }.row(&mut random, &pool, count);
            let plan = Plan {
                size,
                start: Vec::new(),
                row,
            };
            let mut places = plan.met().evictions;
            places.sort_unstable();
            places.dedup();
            assert_eq!(places.len(), PLACES - size as usize, "{size}");
            judge.insist(&plan.case(&mut random));
        }
    }
    say_seen("replays, evictions", Random::seed(), &judge.seen);
    assert_eq!(judge.seen.taken, 6 * 3);
}

/// Rows in which nothing is evicted, then all, then nothing: dead places in
/// long stretches, and evictions that go over them.
#[test]
fn stretches() {
    let mut random = Random::new(Random::seed() ^ 35);
    let mut judge = Judge::new(&Proved, &Reference);
    let mut skipped = 0;
    for size in SIZES {
        for stretch in [size as usize, 1_000, 4_000] {
            let row = (0..LONGEST as u64).map(|number| match number / stretch as u64 % 2 {
                0 => number % size,
                _ => number,
            });
            let plan = Plan {
                size,
                start: Vec::new(),
                row: row.collect(),
            };
            skipped += plan.met().skipped;
            judge.insist(&plan.case(&mut random));
        }
    }
    say_seen("replays, stretches", Random::seed(), &judge.seen);
    say(&format!("evictions went over {skipped} dead places"));
    assert_eq!(judge.seen.taken, 7 * 3);
    assert!(skipped > 10_000);
}
