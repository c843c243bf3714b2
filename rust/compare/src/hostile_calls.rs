//! Reductions of traces made against the filter: short ones by the thousand,
//! and ones long enough that the numbers of its heads come to their end.

use crate::buckets::{FILTER, Halves};
use crate::hostile::{Order, Pool, around_the_ends};
use crate::{Case, Random, traces};
use types::Item;
use types::layout::whole;

/// On both sides of the few links of a chain that are followed.
const SMALL: [u64; 7] = [1, 2, 3, 8, 9, 10, 64];

/// On both sides of the most that a filter can hold.
const LARGE: [u64; 3] = [1000, 1023, 1024];

pub const MODES: [u64; 2] = [1, 2];

pub fn reduce(random: &mut Random, items: &[Item], mode: u64, filter: u64) -> Case {
    let file = whole(items);
    let room = file.len() + random.index(40);
    Case::Reduce {
        mode,
        filter,
        // Random bytes for a long file would take longer than the call.
        out: vec![random.bits() as u8; room],
        file,
    }
}

/// A short trace, but with room for several epochs.
pub fn any(random: &mut Random) -> Case {
    let filter = match random.once_in(30) {
        true => random.pick(&LARGE),
        false => random.pick(&SMALL),
    };
    let mode = random.pick(&MODES);
    let count = random.index(6 * filter as usize + 60);
    let items = short(random, filter as usize, count);
    reduce(random, &items, mode, filter)
}

fn short(random: &mut Random, filter: usize, count: usize) -> Vec<Item> {
    let pages = 1 + random.index(2 * filter + 12);
    let pool = Pool::random(random).pages(FILTER, random, pages);
    let row = match random.below(4) {
        0 => around_the_ends(random, filter, count),
        1 => return traces::items(random, &pool, count),
        _ => order(random, filter).row(random, &pool, count),
    };
    traces::timed(random, &row)
}

/// An order that fills so many places, or one more or fewer, and goes on.
pub fn order(random: &mut Random, filter: usize) -> Order {
    let fill = (filter + random.index(3)).saturating_sub(1).max(1);
    let again = 1 + random.index(filter + 10);
    random.pick(&[
        Order::Loop,
        Order::Random,
        Order::Oldest { fill, again },
        Order::Newest { fill, again },
    ])
}

/// A head holds 65,535 at most, and each page that comes into the filter takes
/// a number. In each of these traces the numbers come to their end at least
/// twice, and pages of before come again after it.
pub fn long(random: &mut Random, filter: u64) -> Vec<Vec<Item>> {
    let fill = filter as usize;
    // With a small filter most items are not the first of their page.
    let count = if fill < 10 { 500_000 } else { 200_000 };
    let halves = Halves::random(random);
    let (one, two) = (Pool::OneBucket(halves), Pool::TwoBuckets(halves));
    let around = random.pick(&[64_511, 64_512, 64_513, 65_535, 65_536, 65_537]);
    let rows = [
        (Pool::Plain, fill + 1, Order::Loop),
        (Pool::Plain, around, Order::Loop),
        (Pool::Plain, 2 * fill + 1, Order::Random),
        (one, 2 * fill + 1, Order::Random),
        (one, 2 * fill + 1, Order::Newest { fill, again: 2 }),
        (two, 2 * fill + 1, Order::Oldest { fill, again: 2 }),
    ];
    let mut rows: Vec<Vec<u64>> = rows
        .into_iter()
        .map(|(pool, pages, order)| {
            let pages = pool.pages(FILTER, random, pages);
            order.row(random, &pages, count)
        })
        .collect();
    rows.push(around_the_ends(random, fill, count));
    let timed = |row: &Vec<u64>| traces::timed(random, row);
    rows.iter().map(timed).collect()
}
