//! Starts of every length, and starts that are refused.

use bindings::Proved;
use compare::buckets::{Halves, LOG};
use compare::hostile::Pool;
use compare::replay_calls::Plan;
use compare::report::say_seen;
use compare::{Case, Judge, Random};
use reference::Reference;
use types::Frame;
use types::limits::LARGEST_CACHE;

const MOST: usize = LARGEST_CACHE as usize;

/// Short starts and the longest.
const LENGTHS: [usize; 6] = [2, 3, 4, 64, MOST - 1, MOST];

fn pools() -> [Pool; 4] {
    [
        Pool::Plain,
        Pool::FromTheTop,
        Pool::OneBucket(Halves::Both),
        Pool::TwoBuckets(Halves::Both),
    ]
}

/// Distinct pages, more than a start can have.
fn pages(random: &mut Random, pool: Pool) -> Vec<u64> {
    pool.pages(LOG, random, MOST + 3)
}

/// The page used last, the one used longest ago, one from the middle, and two
/// that were not there.
fn after(start: &[u64], strange: [u64; 2]) -> Vec<u64> {
    let ends = [start.first(), start.last(), start.get(start.len() / 2)];
    let known = ends.into_iter().flatten().copied();
    known.chain(strange).chain(start.last().copied()).collect()
}

/// By turns in a cache that is full, in one with room for one more, and in the
/// largest.
#[test]
fn every_length() {
    let mut random = Random::new(Random::seed() ^ 36);
    let mut judge = Judge::new(&Proved, &Reference);
    let [plain, top, one, two] = &pools().map(|pool| pages(&mut random, pool));
    for length in 0..=MOST {
        // Long chains take long, so not each start has them.
        let pages = match length % 64 {
            0 | 63 => one,
            32 => two,
            odd if odd % 2 == 1 => top,
            _ => plain,
        };
        let start = pages[..length].to_vec();
        let sizes = [length.max(1), (length + 1).min(MOST), MOST];
        let plan = Plan {
            size: sizes[length % 3] as u64,
            row: after(&start, [pages[length], pages[length + 1]]),
            start,
        };
        judge.insist(&plan.case(&mut random));
    }
    say_seen("starts, every length", Random::seed(), &judge.seen);
    assert_eq!(judge.seen.taken, MOST as u64 + 1);
}

/// Pairs of places in a start: at both ends, side by side, and far apart.
fn pairs(length: usize) -> Vec<(usize, usize)> {
    let (last, middle) = (length - 1, length / 2);
    let mut pairs = vec![(0, 1), (0, last), (last - 1, last), (middle - 1, middle)];
    pairs.extend([(1, last), (0, middle), (middle, last)]);
    pairs.retain(|(one, two)| one < two);
    pairs
}

#[test]
fn a_page_twice() {
    let mut random = Random::new(Random::seed() ^ 37);
    let mut judge = Judge::new(&Proved, &Reference);
    for pool in pools() {
        let pages = pages(&mut random, pool);
        for length in LENGTHS {
            for (one, two) in pairs(length) {
                let mut start = pages[..length].to_vec();
                start[two] = start[one];
                let row = after(&start, [pages[MOST], pages[MOST + 1]]);
                let size = random.pick(&[length, MOST]) as u64;
                judge.insist(&Plan { size, start, row }.case(&mut random));
            }
        }
    }
    say_seen("starts, a page twice", Random::seed(), &judge.seen);
    assert_eq!(judge.seen.refused[10], judge.seen.cases);
    assert!(judge.seen.cases > 100);
}

/// A start of so many pages, in which this one is at this place.
fn start_with(length: usize, place: usize, page: u64) -> Vec<u64> {
    let mut start: Vec<u64> = (1..=length as u64).collect();
    start[place] = page;
    start
}

/// They are pages like the others: used again, and evicted if they are not.
#[test]
fn the_first_page_and_the_last() {
    let mut random = Random::new(Random::seed() ^ 38);
    let mut judge = Judge::new(&Proved, &Reference);
    for length in [&LENGTHS[..], &[1]].concat() {
        for place in [0, length / 2, length - 1] {
            for page in [0, u64::MAX] {
                let start = start_with(length, place, page);
                let size = length as u64;
                // The page again, and then as many others as evict it.
                let others = 10_000..10_000 + size;
                for row in [vec![page, 9_000, page], others.collect()] {
                    let start = start.clone();
                    judge.insist(&Plan { size, start, row }.case(&mut random));
                }
            }
        }
    }
    say_seen(
        "starts, the first and the last",
        Random::seed(),
        &judge.seen,
    );
    assert_eq!(judge.seen.taken, judge.seen.cases);
    let evicted = judge.seen.evicted;
    assert!(evicted.page_0 >= 21 && evicted.last_page >= 21);
}

#[test]
fn the_first_page_or_the_last_twice() {
    let mut random = Random::new(Random::seed() ^ 44);
    let mut judge = Judge::new(&Proved, &Reference);
    for length in LENGTHS {
        for (one, two) in pairs(length) {
            for page in [0, u64::MAX] {
                let mut start = start_with(length, one, page);
                start[two] = page;
                let (size, row) = (length as u64, vec![page, 1]);
                judge.insist(&Plan { size, start, row }.case(&mut random));
            }
        }
    }
    say_seen("starts, an end twice", Random::seed(), &judge.seen);
    assert_eq!(judge.seen.refused[10], judge.seen.cases);
}

/// Beyond the resident places a page may come again, and any number of times,
/// the first of all and the last too.
#[test]
fn what_is_not_resident_is_not_looked_at() {
    let mut random = Random::new(Random::seed() ^ 39);
    let mut judge = Judge::new(&Proved, &Reference);
    for length in LENGTHS {
        for (first, filler) in [(0, 0), (0, u64::MAX), (u64::MAX, u64::MAX)] {
            let start = start_with(length - 1, 0, first);
            let row = after(&start, [9_000, 9_001]);
            let size = length as u64;
            let mut case = Plan { size, start, row }.case(&mut random);
            if let Case::Replay {
                cache, resident, ..
            } = &mut case
            {
                cache[*resident..].fill(Frame::written(filler));
            }
            judge.insist(&case);
        }
    }
    say_seen("starts, not resident", Random::seed(), &judge.seen);
    assert_eq!(judge.seen.taken, judge.seen.cases);
}

/// Pages more than the cache holds, whether the buffer has them or not.
#[test]
fn more_than_the_cache_holds() {
    let mut random = Random::new(Random::seed() ^ 40);
    let mut judge = Judge::new(&Proved, &Reference);
    for length in LENGTHS {
        for more in [1, 2, MOST, usize::MAX - length] {
            let start: Vec<u64> = (0..length as u64).collect();
            let (size, row) = (length as u64, vec![1, 2]);
            let mut case = Plan { size, start, row }.case(&mut random);
            if let Case::Replay { resident, .. } = &mut case {
                *resident += more;
            }
            judge.insist(&case);
        }
    }
    say_seen("starts, too many", Random::seed(), &judge.seen);
    assert_eq!(judge.seen.refused[10], judge.seen.cases);
}
