//! Files of 1,000,000 items whose pages share a bucket or two.

use bindings::Proved;
use compare::buckets::{FILTER, Halves};
use compare::hostile::{Order, Pool};
use compare::hostile_calls::{MODES, reduce};
use compare::report::say_seen;
use compare::{Judge, Random, traces};
use reference::Reference;
use types::limits::{LARGEST_FILTER, MOST_ITEMS};

const ITEMS: usize = MOST_ITEMS as usize;

/// Pages that differ in both halves.
const ONE: Pool = Pool::OneBucket(Halves::Both);
const TWO: Pool = Pool::TwoBuckets(Halves::Both);

const OLDEST: Order = Order::Oldest {
    fill: 1024,
    again: 3000,
};
const NEWEST: Order = Order::Newest {
    fill: 1024,
    again: 3000,
};

/// The page that comes again is more than eight links from the head of its
/// chain. A part has more new pages than the largest filter holds.
const SPREAD: Order = Order::Spread {
    every: 80,
    back: 10,
};

/// What comes after what, in equal parts of a file. No page of the first part
/// comes twice in it.
const PARTS: [(Pool, usize, Order); 11] = [
    (ONE, ITEMS, Order::Loop),
    (ONE, 1023, Order::Loop),
    (ONE, 1024, Order::Loop),
    (ONE, 1025, Order::Loop),
    (ONE, 1023, Order::Random),
    (ONE, 1100, Order::Random),
    (ONE, 2500, OLDEST),
    (ONE, 2500, NEWEST),
    (ONE, 2500, SPREAD),
    (TWO, 1025, Order::Loop),
    (TWO, 1024, Order::Random),
];

fn part(random: &mut Random, part: (Pool, usize, Order), count: usize) -> Vec<u64> {
    let (pool, pages, order) = part;
    let pages = pool.pages(FILTER, random, pages);
    order.row(random, &pages, count)
}

/// With the largest filter, nothing but misses in the one mode and nothing but
/// far hits in the other.
#[test]
fn one_order() {
    let mut random = Random::new(Random::seed() ^ 18);
    let mut judge = Judge::new(&Proved, &Reference);
    for (order, mode) in PARTS.into_iter().zip(MODES) {
        let row = part(&mut random, order, ITEMS);
        let items = traces::timed(&mut random, &row);
        judge.insist(&reduce(&mut random, &items, mode, LARGEST_FILTER));
    }
    say_seen("hostile, full size", Random::seed(), &judge.seen);
    assert_eq!((judge.seen.cases, judge.seen.taken), (2, 2));
}

/// Small filters with both modes; of large ones, which take long, the largest.
const CALLS: [(u64, &[u64]); 9] = [
    (1, &MODES),
    (2, &MODES),
    (8, &MODES),
    (9, &MODES),
    (10, &MODES),
    (64, &MODES),
    (1000, &[1]),
    (1023, &[2]),
    (LARGEST_FILTER, &MODES),
];

/// Every order with every filter.
#[test]
fn all_orders() {
    let mut random = Random::new(Random::seed() ^ 19);
    let mut judge = Judge::new(&Proved, &Reference);
    let count = ITEMS / PARTS.len();
    let row: Vec<u64> = PARTS
        .iter()
        .flat_map(|order| part(&mut random, *order, count))
        .collect();
    let items = traces::timed(&mut random, &row);
    for (filter, modes) in CALLS {
        for mode in modes {
            judge.insist(&reduce(&mut random, &items, *mode, filter));
        }
    }
    say_seen("hostile, all orders", Random::seed(), &judge.seen);
    assert_eq!((judge.seen.cases, judge.seen.taken), (16, 16));
}
