//! Traces made against the tables of chains: the reducer's filter and the
//! replay's log. Each is made when its turn comes.

use crate::traces::{ITEMS, SEED, Trace, next, skewed, trace};
use compare::Random;
use compare::buckets::{FILTER, Halves, LOG, Table};
use types::limits::LARGEST_FILTER;

/// In a replay one of these items may take as long as a hundred others.
pub const REPLAY_ITEMS: u64 = 100_000;

/// So many pages of one bucket: enough for each item of a replay to have its
/// own, and for the skewed trace.
const REPLAY_PAGES: u64 = 2 * REPLAY_ITEMS;

/// All but one of the pages that the largest filter holds.
const FILL: u64 = LARGEST_FILTER - 1;

/// So far apart new pages come, where they are spread: 1,024 in all.
const EVERY: u64 = 977;

/// So far back in its chain, counted in pages, is the one that comes again.
const BACK: u64 = 10;

/// With this stride 1,023 pages fall in 112 buckets, nine or ten in each.
const STRIDE: u64 = 414;

/// Which page comes, by its place among those of the bucket: told the item's
/// number, how many pages there are to go around, and the random state.
type Order = fn(u64, u64, &mut u64) -> u64;

const ORDERS: [(&str, Order); 6] = [
    ("sequential", |number, _, _| number),
    ("loop", |number, fill, _| number % fill),
    ("random", |_, fill, state| next(state) % fill),
    ("oldest again", |number, fill, _| match number < fill {
        true => number,
        false => 0,
    }),
    ("newest again", |number, fill, _| number.min(fill - 1)),
    ("skewed", |_, _, state| skewed(state)),
];

/// Traces against the reducer's filter.
pub fn of_reduce() -> impl Iterator<Item = Trace> {
    let pages = one_bucket(FILTER, ITEMS);
    (0..ORDERS.len() + 2).map(move |number| match number.checked_sub(ORDERS.len()) {
        None => ordered(&pages, number, ITEMS, FILL),
        Some(0) => trace("tenth newest, spread", ITEMS, |number| {
            pages[spread(number) as usize]
        }),
        Some(_) => trace("stride 414", ITEMS, |number| number % FILL * STRIDE),
    })
}

/// Traces against the log of a replay with a cache of this size.
pub fn of_replay(size: u64) -> impl Iterator<Item = Trace> {
    let pages = one_bucket(LOG, REPLAY_PAGES);
    (0..ORDERS.len()).map(move |number| ordered(&pages, number, REPLAY_ITEMS, size - 1))
}

fn one_bucket(table: Table, count: u64) -> Vec<u64> {
    let halves = Halves::Lower { upper: 0 };
    table.pages(&mut Random::new(SEED), 0, halves, count as usize)
}

fn ordered(pages: &[u64], number: usize, items: u64, fill: u64) -> Trace {
    let (name, order) = ORDERS[number];
    let name = match name {
        "loop" | "random" => format!("{name} {fill}"),
        _ => name.to_string(),
    };
    let mut state = SEED;
    trace(&name, items, |item| {
        pages[order(item, fill, &mut state) as usize]
    })
}

/// Every 977th item is a new page. All items between are the page that came in
/// ten before it.
fn spread(number: u64) -> u64 {
    let newest = number / EVERY;
    match number % EVERY {
        0 => newest,
        _ => newest.saturating_sub(BACK),
    }
}

#[cfg(test)]
mod tests {
    use super::*;
    use std::collections::HashMap;

    /// What the table's head says of the stride.
    #[test]
    fn the_stride_fills_few_buckets() {
        let mut sharing = HashMap::new();
        for number in 0..FILL {
            *sharing.entry(FILTER.bucket(number * STRIDE)).or_insert(0) += 1;
        }
        assert_eq!(sharing.len(), 112);
        assert!(sharing.values().all(|count| [9, 10].contains(count)));
    }

    /// No more new pages than the largest filter holds, and no fewer.
    #[test]
    fn the_spread_fills_the_filter_once() {
        assert_eq!(spread((ITEMS - 1) / EVERY * EVERY), FILL);
        assert_eq!((spread(EVERY * 30), spread(EVERY * 30 + 1)), (30, 20));
    }

    #[test]
    fn the_replays_pages_share_a_bucket() {
        let names: Vec<String> = of_replay(1024)
            .inspect(|trace| {
                let mut items = reference::items(&trace.file);
                assert!(items.all(|item| LOG.bucket(item.page) == 0));
            })
            .map(|trace| trace.name)
            .collect();
        assert_eq!(names[..3], ["sequential", "loop 1023", "random 1023"]);
    }
}
