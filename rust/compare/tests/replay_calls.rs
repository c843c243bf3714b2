//! Replays made against a log of pages: random ones, pages of one bucket and
//! of two, and full files.

use bindings::Proved;
use compare::buckets::{Halves, LOG};
use compare::hostile::{Order, Pool};
use compare::recency::PLACES;
use compare::replay_calls::{Plan, SIZES, any};
use compare::report::{say, say_seen};
use compare::{Judge, Random};
use reference::Reference;
use types::limits::{LARGEST_CACHE, MOST_ITEMS};

const CASES: u64 = 300;

#[test]
fn random_replays() {
    let mut random = Random::new(Random::seed() ^ 30);
    let mut judge = Judge::new(&Proved, &Reference);
    for _ in 0..CASES {
        judge.insist(&any(&mut random).case(&mut random));
    }
    say_seen("replays, random", Random::seed(), &judge.seen);
    assert_eq!(judge.seen.taken, CASES);
}

/// Orders of so many pages each, for a cache of this size.
fn orders(size: usize) -> [(usize, Order); 7] {
    let (fill, again) = (size, size.min(500) + 3);
    [
        (size.max(2) - 1, Order::Loop),
        (size, Order::Loop),
        (size + 1, Order::Loop),
        (2 * size, Order::Random),
        (3 * size, Order::Oldest { fill, again }),
        (3 * size, Order::Newest { fill, again }),
        (
            3 * size,
            Order::Spread {
                every: 2,
                back: size / 2,
            },
        ),
    ]
}

/// Chains as long as the window.
#[test]
fn one_bucket_and_two() {
    let mut random = Random::new(Random::seed() ^ 41);
    let mut judge = Judge::new(&Proved, &Reference);
    for size in SIZES {
        for pool in [Pool::OneBucket, Pool::TwoBuckets] {
            let pool = pool(Halves::random(&mut random));
            for (pages, order) in orders(size as usize) {
                let pages = pool.pages(LOG, &mut random, pages);
                let row = order.row(&mut random, &pages, 2 * PLACES + 100);
                let plan = Plan {
                    size,
                    start: Vec::new(),
                    row,
                };
                judge.insist(&plan.case(&mut random));
            }
        }
    }
    say_seen("replays, buckets", Random::seed(), &judge.seen);
    assert_eq!(judge.seen.taken, 7 * 2 * 7);
}

/// What these rows are for: a search that looks at as many places as a cache
/// has pages, and more.
#[test]
fn searches_are_long() {
    let mut random = Random::new(Random::seed() ^ 43);
    for size in [64, LARGEST_CACHE] {
        let pool = Pool::OneBucket(Halves::Both);
        let pages = pool.pages(LOG, &mut random, 2 * size as usize);
        let row = Order::Random.row(&mut random, &pages, 2 * PLACES);
        let start = Vec::new();
        let longest = Plan { size, start, row }.met().longest;
        say(&format!("K={size}: a search looked at {longest} places"));
        assert!(longest > size as usize);
    }
}

/// Files of 1,000,000 items: a log of one page, which is packed as rarely as can
/// be, one of 64, and one that is packed as often as can be and has only fetches.
#[test]
fn full_files() {
    let mut random = Random::new(Random::seed() ^ 42);
    let mut judge = Judge::new(&Proved, &Reference);
    let mut packings = Vec::new();
    for (size, pool, pages, order) in [
        (1, Pool::Plain, 2, Order::Random),
        (64, Pool::FromTheTop, 130, Order::Random),
        (LARGEST_CACHE, Pool::FromTheTop, 4_097, Order::Loop),
    ] {
        let pool = pool.pages(LOG, &mut random, pages);
        let row = order.row(&mut random, &pool, MOST_ITEMS as usize);
        let plan = Plan {
            size,
            start: Vec::new(),
            row,
        };
        packings.push(plan.met().packings.len());
        judge.insist(&plan.case(&mut random));
    }
    say_seen("replays, full files", Random::seed(), &judge.seen);
    assert_eq!(judge.seen.taken, 3);
    assert_eq!(packings, [122, 123, 243]);
}
