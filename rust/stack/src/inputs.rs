//! The traces on which the stack is measured: they take the reducer's filter
//! to all that it does.

use compare::buckets::{FILTER, Halves};
use compare::hostile::{Order, Pool};
use compare::{Random, traces};
use types::layout::{ITEM_BYTES, WRITE_TAG, encode, whole};
use types::{Header, Item};

/// The most items that a program takes.
const PROGRAM_ITEMS: usize = 1_723;

const DEMAND: u64 = 2;

fn trace(pool: Pool, pages: usize, order: Order, count: usize) -> Vec<Item> {
    let mut random = Random::new(Random::seed());
    let pool = pool.pages(FILTER, &mut random, pages);
    let row = order.row(&mut random, &pool, count);
    traces::timed(&mut random, &row)
}

/// Each fills the largest filter several times: with hits and misses, with
/// pages that all share a bucket, and so often that its heads are cleared.
pub fn all() -> [Vec<Item>; 3] {
    let one = Pool::OneBucket(Halves::Both);
    [
        mixed(),
        trace(one, 1_500, Order::Random, 10_000),
        trace(Pool::Plain, 150_000, Order::Loop, 150_000),
    ]
}

/// Hits and misses.
pub fn mixed() -> Vec<Item> {
    trace(Pool::Plain, 6_000, Order::Random, 10_000)
}

/// As many items as a program takes.
pub fn for_programs() -> Vec<u8> {
    whole(&program_items())
}

/// More pages than the largest filter holds, so that it is full once in so few
/// items. Of each ten the first comes again, and is more than eight links from
/// the head of its chain.
fn program_items() -> Vec<Item> {
    let order = Order::Oldest { fill: 10, again: 5 };
    let one = Pool::OneBucket(Halves::Both);
    trace(one, PROGRAM_ITEMS, order, PROGRAM_ITEMS)
}

/// A file with a fault in its last item, which is looked at last.
pub fn faulty(items: &[Item]) -> Vec<u8> {
    let mut file = whole(items);
    let tag = file.len() - ITEM_BYTES;
    file[tag] = WRITE_TAG + 1;
    file
}

/// These items in a file that says that it is reduced.
pub fn reduced(items: &[Item]) -> Vec<u8> {
    let count = items.len() as u64;
    let header = Header {
        kind: DEMAND,
        filter: 1,
        references: count,
        items: count,
    };
    encode(&header, items)
}

#[cfg(test)]
mod tests {
    use super::*;
    use std::collections::HashSet;
    use types::limits::LARGEST_FILTER;

    /// Only a trace with more pages than the filter holds can fill it and go on.
    #[test]
    fn more_pages_than_the_largest_filter() {
        for items in all().iter().chain([&program_items()]) {
            let pages: HashSet<u64> = items.iter().map(|item| item.page).collect();
            assert!(pages.len() as u64 > LARGEST_FILTER, "{}", pages.len());
        }
    }

    /// Some of a program's items are hits.
    #[test]
    fn pages_come_again() {
        let items = program_items();
        let pages: HashSet<u64> = items.iter().map(|item| item.page).collect();
        assert_eq!(items.len(), PROGRAM_ITEMS);
        assert!(pages.len() < PROGRAM_ITEMS - 500);
    }
}
