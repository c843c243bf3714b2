//! Replays made against a log of pages: around the places where it is packed,
//! with pages of one bucket, and from starts of all lengths.

use crate::buckets::LOG;
use crate::faulty_replay::met;
use crate::hostile::Pool;
use crate::hostile_calls::order;
use crate::recency::{Met, PLACES};
use crate::{Case, Random, marks, starts, traces};
use types::NUMBERS_PER_EVENT;
use types::layout::whole;
use types::limits::LARGEST_CACHE;

/// Where a log has one page, few, or as many as it ever has.
pub const SIZES: [u64; 7] = [1, 2, 3, 63, 64, LARGEST_CACHE - 1, LARGEST_CACHE];

/// A cache size, the pages it starts with, and those that are then used.
#[derive(Clone, Debug)]
pub struct Plan {
    pub size: u64,
    pub start: Vec<u64>,
    pub row: Vec<u64>,
}

impl Plan {
    /// The call. There may be room beyond what it writes. The places of the
    /// cache that are not resident hold pages, most of them of the trace. Marks
    /// are any, in the cache and in the trace.
    pub fn case(&self, random: &mut Random) -> Case {
        let places = self.size as usize + random.index(4);
        let others = self.row.iter().rev().chain([&7]).cycle();
        let pages = self.start.iter().chain(others).take(places);
        let pages: Vec<u64> = pages.copied().collect();
        let events = NUMBERS_PER_EVENT * self.row.len() + random.index(5);
        Case::Replay {
            size: self.size,
            cache: marks::frames(random, &pages),
            resident: self.start.len(),
            events: vec![random.bits(); events],
            file: whole(&traces::timed(random, &self.row)),
        }
    }

    /// What a log meets in it.
    pub fn met(&self) -> Met {
        met(&self.row, self.size, &self.start)
    }
}

/// Any cache, mostly small; a trace that is short, or long enough that the log
/// is packed, mostly once or twice.
pub fn any(random: &mut Random) -> Plan {
    let size = match random.once_in(8) {
        true => random.pick(&SIZES[5..]),
        false => random.pick(&SIZES[..5]),
    };
    let pages = 1 + random.index(2 * size as usize + 12);
    let pool = Pool::random(random).pages(LOG, random, pages);
    let start = starts::pages(random, &pool, size);
    let count = count(random, start.len());
    let row = match random.once_in(3) {
        true => {
            let items = traces::items(random, &pool, count);
            items.iter().map(|item| item.page).collect()
        }
        false => order(random, size as usize).row(random, &pool, count),
    };
    Plan { size, start, row }
}

fn count(random: &mut Random, resident: usize) -> usize {
    match random.below(4) {
        0 => random.index(80),
        1 => PLACES - resident - 3 + random.index(7),
        2 => PLACES + random.index(PLACES),
        _ => random.index(3 * PLACES),
    }
}

#[cfg(test)]
mod tests {
    use super::*;

    #[test]
    fn a_case_has_the_start_and_more_room() {
        let plan = Plan {
            size: 4,
            start: vec![9, 8],
            row: vec![1, 2, 3],
        };
        let Case::Replay {
            cache,
            events,
            resident,
            ..
        } = plan.case(&mut Random::new(1))
        else {
            panic!("a replay");
        };
        let pages: Vec<u64> = cache[..4].iter().map(|frame| frame.page).collect();
        assert_eq!((&pages[..], resident), (&[9, 8, 3, 2][..], 2));
        assert!((12..12 + 5).contains(&events.len()));
    }

    /// Random plans bring a log to all that it does.
    #[test]
    fn plans_pack_evict_and_search_far() {
        let mut random = Random::new(1);
        let met: Vec<Met> = (0..100).map(|_| any(&mut random).met()).collect();
        assert!(met.iter().any(|met| met.packings.len() > 1));
        assert!(met.iter().any(|met| met.packings.is_empty()));
        assert!(met.iter().any(|met| met.skipped > 1_000));
        assert!(met.iter().any(|met| met.longest > 1_000));
    }
}
