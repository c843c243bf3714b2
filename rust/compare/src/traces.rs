//! Random traces of several shapes.

use crate::Random;
use crate::marks::Marks;
use types::Item;

/// How the next page is chosen from the pool.
#[derive(Clone, Copy)]
enum Shape {
    Uniform,
    Loop,
    /// The first pages of the pool far more often than the last.
    Skewed,
    /// The same page again and again.
    Bursts,
}

/// A pool of distinct pages: either side by side or all over the 64 bits. The
/// first page and the last that 64 bits can name are often among them, and often
/// both: after the last the pages go on from the first.
pub fn pool(random: &mut Random, pages: usize) -> Vec<u64> {
    let pages = pages as u64;
    let any = random.bits();
    let (base, step) = match random.once_in(3) {
        true => (random.pick(&[0, u64::MAX, any]), SPREAD),
        false => {
            let around = u64::MAX - random.below(pages);
            (
                random.pick(&[0, u64::MAX - (pages - 1), around, around, any]),
                1,
            )
        }
    };
    (0..pages)
        .map(|number| base.wrapping_add(number.wrapping_mul(step)))
        .collect()
}

/// How far apart pages are that are all over the 64 bits. It is odd, so they are
/// distinct.
const SPREAD: u64 = 0xD6E8_FEB8_6659_FD93;

/// So many items over the pages of the pool, of which some are writes, or none
/// or all are.
pub fn items(random: &mut Random, pool: &[u64], count: usize) -> Vec<Item> {
    let shapes = [Shape::Uniform, Shape::Loop, Shape::Skewed, Shape::Bursts];
    let mut shape = random.pick(&shapes);
    let mut clock = Clock::new(random);
    let marks = Marks::random(random);
    let mut place = 0;
    (0..count)
        .map(|_| {
            // Now and then the trace turns to another shape.
            if random.once_in(50) {
                shape = random.pick(&shapes);
            }
            place = next_place(random, shape, place, pool.len());
            Item {
                page: pool[place],
                time: clock.next(random),
                written: marks.next(random),
            }
        })
        .collect()
}

/// These pages, with times and marks.
pub fn timed(random: &mut Random, pages: &[u64]) -> Vec<Item> {
    let mut clock = Clock::new(random);
    let marks = Marks::random(random);
    pages
        .iter()
        .map(|page| Item {
            page: *page,
            time: clock.next(random),
            written: marks.next(random),
        })
        .collect()
}

fn next_place(random: &mut Random, shape: Shape, place: usize, pages: usize) -> usize {
    match shape {
        Shape::Uniform => random.index(pages),
        Shape::Loop => (place + 1) % pages,
        Shape::Skewed => {
            let bound = random.index(pages) + 1;
            let bound = random.index(bound) + 1;
            random.index(bound)
        }
        Shape::Bursts if random.once_in(5) => random.index(pages),
        Shape::Bursts => place,
    }
}

/// Times that never fall; equal ones are common, and the last time of 64 bits
/// is reached now and then.
struct Clock {
    now: u64,
    step: u64,
}

impl Clock {
    fn new(random: &mut Random) -> Self {
        let steps = [1, 2, 10, 1 << 20, 1 << 40];
        let now = match random.below(4) {
            0 => u64::MAX - random.below(50),
            1 => random.bits() >> 1,
            _ => random.below(100),
        };
        Clock {
            now,
            step: random.pick(&steps),
        }
    }

    fn next(&mut self, random: &mut Random) -> u64 {
        self.now = self.now.saturating_add(random.below(self.step + 1));
        self.now
    }
}

/// A length for a trace: mostly short, sometimes long.
pub fn length(random: &mut Random) -> usize {
    let bound = match random.below(60) {
        0 => 6000,
        1..4 => 800,
        4..20 => 100,
        20..50 => 25,
        _ => 4,
    };
    random.index(bound)
}

/// A number of pages for a pool: mostly few, so that pages come again.
pub fn pages(random: &mut Random) -> usize {
    let bound = random.pick(&[1, 2, 4, 8, 8, 30, 30, 200, 1500]);
    1 + random.index(bound)
}

#[cfg(test)]
mod tests {
    use super::*;

    #[test]
    fn pages_of_a_pool_are_distinct() {
        let mut random = Random::new(1);
        for _ in 0..1000 {
            let pages = pages(&mut random);
            let mut pool = pool(&mut random, pages);
            pool.sort_unstable();
            pool.dedup();
            assert_eq!(pool.len(), pages);
        }
    }

    /// The first page and the last are in many pools, also in small ones, and
    /// both in many of those that have room for them.
    #[test]
    fn the_first_and_the_last_page_are_often_in_a_pool() {
        let mut random = Random::new(1);
        for pages in [2, 3, 8, 200] {
            let pools: Vec<Vec<u64>> = (0..1000).map(|_| pool(&mut random, pages)).collect();
            let count = |wanted: &[u64]| {
                let has_all = |pool: &&Vec<u64>| wanted.iter().all(|page| pool.contains(page));
                pools.iter().filter(has_all).count()
            };
            assert!(count(&[0]) > 300, "{pages}: {}", count(&[0]));
            assert!(count(&[u64::MAX]) > 400, "{pages}: {}", count(&[u64::MAX]));
            let both = count(&[0, u64::MAX]);
            assert!(both > 100 && both < 500, "{pages}: {both}");
        }
    }
}
