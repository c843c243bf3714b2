//! Pages chosen against the reducer's filter and against the replay's log. Both
//! find a page by chains, one for each bucket; here are as many pages of one
//! bucket as a trace can want.

use crate::Random;

/// What the lower and the upper half of a page are multiplied with.
const LOWER: u32 = 1_640_531_527;
const UPPER: u32 = 1_540_483_477;

/// A table of so many buckets, a power of two. A page's sum, modulo 2^32, says
/// in which of them it falls, and all have the same share of the sums.
#[derive(Clone, Copy, Debug, PartialEq, Eq)]
pub struct Table {
    pub buckets: u64,
}

/// The reducer's filter.
pub const FILTER: Table = Table { buckets: 1024 };

/// The replay's log.
pub const LOG: Table = Table { buckets: 8192 };

impl Table {
    /// So many sums in a row fall in one bucket.
    const fn width(self) -> u64 {
        (1 << u32::BITS) / self.buckets
    }

    /// The bucket of a page, as the proved library computes it.
    pub fn bucket(self, page: u64) -> u64 {
        let (lower, upper) = (page % (1 << 32), page / (1 << 32));
        (lower * u64::from(LOWER) + upper * u64::from(UPPER)) / self.width() % self.buckets
    }

    /// So many pages of one bucket, or all if it has fewer. A page has one sum,
    /// so where sums are distinct pages are. A bucket of the filter has enough
    /// for a file of distinct pages, one of the log for half of it.
    pub fn pages(self, random: &mut Random, bucket: u64, halves: Halves, count: usize) -> Vec<u64> {
        let first = bucket * self.width();
        (first..first + self.width())
            .map(|sum| halves.page(random, sum as u32))
            .take(count)
            .collect()
    }

    /// As many of this page's bucket, of which the page is the first.
    pub fn pages_with(
        self,
        random: &mut Random,
        page: u64,
        halves: Halves,
        count: usize,
    ) -> Vec<u64> {
        let mut pages = self.pages(random, self.bucket(page), halves, count);
        pages.retain(|other| *other != page);
        pages.insert(0, page);
        pages.truncate(count);
        pages
    }
}

/// Which half of a page tells it from the others of its bucket.
#[derive(Clone, Copy, Debug, PartialEq, Eq)]
pub enum Halves {
    /// The upper half is this one.
    Lower { upper: u32 },
    /// The lower half is this one.
    Upper { lower: u32 },
    /// The upper half is any.
    Both,
}

impl Halves {
    /// One of the three, with halves at the edges of their 32 bits and between.
    pub fn random(random: &mut Random) -> Halves {
        let any = random.bits() as u32;
        let half = random.pick(&[0, 1, any, u32::MAX - 1, u32::MAX]);
        match random.below(3) {
            0 => Halves::Lower { upper: half },
            1 => Halves::Upper { lower: half },
            _ => Halves::Both,
        }
    }

    /// The page of this sum. Both factors are odd and so have inverses modulo
    /// 2^32: for each sum and each half there is one other half.
    fn page(self, random: &mut Random, sum: u32) -> u64 {
        let (lower, upper) = match self {
            Halves::Lower { upper } => (lower_of(sum, upper), upper),
            Halves::Upper { lower } => {
                let rest = sum.wrapping_sub(lower.wrapping_mul(LOWER));
                (lower, rest.wrapping_mul(inverse(UPPER)))
            }
            Halves::Both => {
                let upper = random.bits() as u32;
                (lower_of(sum, upper), upper)
            }
        };
        u64::from(upper) << 32 | u64::from(lower)
    }
}

fn lower_of(sum: u32, upper: u32) -> u32 {
    let rest = sum.wrapping_sub(upper.wrapping_mul(UPPER));
    rest.wrapping_mul(inverse(LOWER))
}

/// The inverse of an odd number modulo 2^32. An odd number is its own inverse
/// modulo 8, and each of Newton's steps doubles the bits that are right.
const fn inverse(odd: u32) -> u32 {
    let mut inverse = odd;
    let mut right = 3;
    while right < u32::BITS {
        inverse = inverse.wrapping_mul(2_u32.wrapping_sub(odd.wrapping_mul(inverse)));
        right *= 2;
    }
    inverse
}

#[cfg(test)]
mod tests {
    use super::*;

    #[test]
    fn inverses() {
        assert_eq!(LOWER.wrapping_mul(inverse(LOWER)), 1);
        assert_eq!(UPPER.wrapping_mul(inverse(UPPER)), 1);
    }

    #[test]
    fn sums_of_a_bucket() {
        assert_eq!([FILTER, LOG].map(Table::width), [4_194_304, 524_288]);
    }

    /// By hand: 1640531527 / 4194304 is 391 and a bit, 1540483477 / 4194304 is
    /// 367 and a bit; with 524288 they are 3129 and 2938, each and a bit.
    #[test]
    fn buckets_of_a_few_pages() {
        let pages = [0, 1, 2, 3, 1 << 32, (1 << 32) + 1];
        let buckets = |table: Table| pages.map(|page| table.bucket(page));
        assert_eq!(buckets(FILTER), [0, 391, 782, 149, 367, 758]);
        assert_eq!(buckets(LOG), [0, 3129, 6258, 1195, 2938, 6067]);
    }

    /// The first row is computed in `crates/filter/specs/Examples.antt`
    /// (`buckets-of`) from the proved filter's own definition. The second is
    /// computed in `crates/recency/specs/Examples.antt`, under the same name,
    /// from that of the replay's log. Should a definition change, the formula
    /// here has to follow: pages of one bucket here would not be of one bucket
    /// there, and no hostile trace would be hostile any more.
    #[test]
    fn buckets_as_the_specification_computes_them() {
        let pages = [0, 1, 2, 987, 4294967296, 18446744073709551615];
        let buckets = |table: Table| pages.map(|page| table.bucket(page));
        assert_eq!(buckets(FILTER), [0, 391, 782, 0, 367, 265]);
        assert_eq!(buckets(LOG), [0, 3129, 6258, 3, 2938, 2124]);
    }

    #[test]
    fn pages_are_distinct_and_of_their_bucket() {
        let mut random = Random::new(1);
        let mut kinds: Vec<Halves> = (0..30).map(|_| Halves::random(&mut random)).collect();
        kinds.extend([0, u32::MAX].map(|upper| Halves::Lower { upper }));
        kinds.extend([0, u32::MAX].map(|lower| Halves::Upper { lower }));
        for (halves, table) in kinds.iter().flat_map(|of| [(*of, FILTER), (*of, LOG)]) {
            let buckets = table.buckets;
            for of in [0, 1, random.below(buckets), buckets - 1] {
                let mut pages = table.pages(&mut random, of, halves, 3000);
                let is_in = |page: &u64| table.bucket(*page) == of;
                assert!(pages.iter().all(is_in), "{halves:?} {table:?}");
                pages.sort_unstable();
                pages.dedup();
                assert_eq!(pages.len(), 3000, "{halves:?} {table:?}");
            }
        }
    }

    /// All pages of a bucket are there, the first of all and the last too.
    #[test]
    fn no_page_is_left_out() {
        let mut random = Random::new(1);
        for (page, upper) in [(0, 0), (u64::MAX, u32::MAX)] {
            for table in [FILTER, LOG] {
                let (bucket, halves) = (table.bucket(page), Halves::Lower { upper });
                let all = table.pages(&mut random, bucket, halves, usize::MAX);
                assert!(all.contains(&page));
                assert_eq!(all.len() as u64, table.width());
            }
        }
    }

    #[test]
    fn a_page_and_others_of_its_bucket() {
        let mut random = Random::new(1);
        let halves = [Halves::Both, Halves::Lower { upper: u32::MAX }];
        for (page, halves) in [0, 987, u64::MAX].into_iter().zip(halves.iter().cycle()) {
            for count in [0, 1, 2, 500] {
                let mut pages = FILTER.pages_with(&mut random, page, *halves, count);
                assert_eq!(pages.first(), Some(&page).filter(|_| count > 0));
                let is_in = |other: &u64| FILTER.bucket(*other) == FILTER.bucket(page);
                assert!(pages.iter().all(is_in));
                pages.sort_unstable();
                pages.dedup();
                assert!(pages.len() == count);
            }
        }
    }
}
