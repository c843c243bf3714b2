//! Rows of pages made against a table of chains: its chains long, or, in the
//! filter, their places left behind by the epoch before.

use crate::Random;
use crate::buckets::{FILTER, Halves, Table};

/// Where the pages of a row come from.
#[derive(Clone, Copy, Debug, PartialEq, Eq)]
pub enum Pool {
    /// Side by side from the first page up. Of as many in a row as the largest
    /// filter holds, no three share a bucket.
    Plain,
    /// The same from the last page down.
    FromTheTop,
    OneBucket(Halves),
    /// Two buckets taking turns.
    TwoBuckets(Halves),
}

impl Pool {
    /// Mostly of one bucket.
    pub fn random(random: &mut Random) -> Pool {
        let halves = Halves::random(random);
        match random.below(9) {
            0 => Pool::Plain,
            1 => Pool::FromTheTop,
            2 | 3 => Pool::TwoBuckets(halves),
            _ => Pool::OneBucket(halves),
        }
    }

    /// So many distinct pages. Those of one bucket are so in this table.
    pub fn pages(self, table: Table, random: &mut Random, count: usize) -> Vec<u64> {
        let one = often_an_end(random);
        match self {
            Pool::Plain => (0..count as u64).collect(),
            Pool::FromTheTop => (0..count as u64).map(|down| u64::MAX - down).collect(),
            Pool::OneBucket(halves) => table.pages_with(random, one, halves, count),
            Pool::TwoBuckets(halves) => {
                let two = of_another_bucket(table, random, one);
                let each = count.div_ceil(2);
                let one = table.pages_with(random, one, halves, each);
                let two = table.pages_with(random, two, halves, each);
                let turns = one.into_iter().zip(two).flat_map(|(one, two)| [one, two]);
                turns.take(count).collect()
            }
        }
    }
}

/// Any page, but often the first of all or the last.
fn often_an_end(random: &mut Random) -> u64 {
    let any = random.bits();
    random.pick(&[0, u64::MAX, any, any])
}

fn of_another_bucket(table: Table, random: &mut Random, page: u64) -> u64 {
    let mut other = || often_an_end(random);
    let is_other = |other: &u64| table.bucket(*other) != table.bucket(page);
    let found = std::iter::repeat_with(&mut other).find(is_other);
    found.expect("pages do not come to an end")
}

/// In which order the pages of a pool come.
#[derive(Clone, Copy, Debug, PartialEq, Eq)]
pub enum Order {
    /// One after the other, and from the first again.
    Loop,
    Random,
    /// So many pages, then the first of them so many times more; then others.
    Oldest {
        fill: usize,
        again: usize,
    },
    /// The same with the last of them.
    Newest {
        fill: usize,
        again: usize,
    },
    /// Each `every`th item a new page; between them, the page that came in so
    /// many pages before the newest.
    Spread {
        every: usize,
        back: usize,
    },
}

impl Order {
    /// So many pages out of a pool.
    pub fn row(self, random: &mut Random, pool: &[u64], count: usize) -> Vec<u64> {
        let place = |number| match self {
            Order::Loop => number,
            Order::Random => random.index(pool.len()),
            Order::Oldest { fill, again } => {
                let (round, place) = (number / (fill + again), number % (fill + again));
                round * fill + if place < fill { place } else { 0 }
            }
            Order::Newest { fill, again } => {
                let (round, place) = (number / (fill + again), number % (fill + again));
                round * fill + place.min(fill - 1)
            }
            Order::Spread { every, back } => {
                let newest = number / every;
                match number % every {
                    0 => newest,
                    _ => newest.saturating_sub(back),
                }
            }
        };
        let places = (0..count).map(place);
        places.map(|place| pool[place % pool.len()]).collect()
    }
}

/// Epochs of `filter` pages in which up to three of a few that share a bucket
/// stand at the start or at the end, and come again there: whoever takes a
/// place of the epoch before for one of this epoch finds such a page in it.
pub fn around_the_ends(random: &mut Random, filter: usize, count: usize) -> Vec<u64> {
    let halves = Halves::random(random);
    let (any, last) = (random.bits(), u64::MAX);
    // The first page is one of the others.
    let one = random.pick(&[any, last]);
    let sharing = FILTER.pages_with(random, one, halves, 4);
    let mut others = 0;
    let mut row = Vec::with_capacity(count);
    while row.len() < count {
        let chosen = chosen(random, &sharing, filter);
        let (early, late) = chosen.split_at(random.index(chosen.len() + 1));
        again_and_again(random, &mut row, early);
        // Some of them come in every other epoch as well, in other places.
        row.extend((others..).take(filter - chosen.len()));
        others = (others + random.below(2 * filter as u64)) % (4 * filter as u64);
        again_and_again(random, &mut row, late);
    }
    row.truncate(count);
    row
}

/// One to three of these, as far as the filter has room, in any order.
fn chosen(random: &mut Random, from: &[u64], filter: usize) -> Vec<u64> {
    let mut left = from.to_vec();
    let count = 1 + random.index(filter.min(3));
    let mut take = |_| left.swap_remove(random.index(left.len()));
    (0..count).map(&mut take).collect()
}

/// Each of these pages, and now and then one of those before it again.
fn again_and_again(random: &mut Random, row: &mut Vec<u64>, pages: &[u64]) {
    for (number, page) in pages.iter().enumerate() {
        row.push(*page);
        for _ in 0..random.below(4) {
            row.push(pages[random.index(number + 1)]);
        }
    }
}

#[cfg(test)]
mod tests {
    use super::*;
    use types::limits::LARGEST_FILTER;

    #[test]
    fn plain_pages_share_a_bucket_in_twos_at_most() {
        for pool in [Pool::Plain, Pool::FromTheTop] {
            let pages = pool.pages(FILTER, &mut Random::new(1), 150_000);
            for row in pages.windows(LARGEST_FILTER as usize).step_by(100) {
                let mut sharing = [0; FILTER.buckets as usize];
                for page in row {
                    sharing[FILTER.bucket(*page) as usize] += 1;
                }
                assert!(sharing.iter().all(|count| *count <= 2), "{}", row[0]);
            }
        }
    }

    /// Page 0 and the last come into pools of one bucket and of two; into those
    /// of two also both.
    #[test]
    fn the_first_and_the_last_page_are_often_in_a_pool() {
        let mut random = Random::new(1);
        let halves = Halves::Both;
        for (pool, is_of_two) in [
            (Pool::OneBucket(halves), false),
            (Pool::TwoBuckets(halves), true),
        ] {
            let pools: Vec<Vec<u64>> = (0..400)
                .map(|_| pool.pages(FILTER, &mut random, 10))
                .collect();
            let has = |page: u64| pools.iter().filter(move |pages| pages.contains(&page));
            assert!(has(0).count() > 50 && has(u64::MAX).count() > 50);
            let both = has(0).filter(|pages| pages.contains(&u64::MAX)).count();
            assert_eq!(both > 20, is_of_two, "{both}");
        }
    }

    #[test]
    fn spread() {
        let order = Order::Spread { every: 3, back: 1 };
        let row = order.row(&mut Random::new(1), &[5, 6, 7, 8], 11);
        assert_eq!(row, [5, 5, 5, 6, 5, 5, 7, 6, 6, 8, 7]);
    }
}
