//! A log of pages like that of the proved replay, with one fault or none.
//! Every item appends its page; a page counts where it stands last, and its
//! earlier places are dead. The places in use are a window, and a page is found
//! along a chain of places from its bucket's head. A full log is packed.

use crate::buckets::LOG;
use crate::recency_faults::RecencyFault::{self, *};

pub const PLACES: usize = 8192;

/// After so many places a search that cuts its chain gives up.
const CUT: usize = 64;

/// What touching a page did.
#[derive(Clone, Copy, Debug, PartialEq, Eq)]
pub enum Touch {
    Hit,
    Fetch { evicted: Option<u64> },
}

/// What a log came to.
#[derive(Clone, Debug, Default, PartialEq, Eq)]
pub struct Met {
    /// After how many items it was packed.
    pub packings: Vec<usize>,
    /// For each eviction, the place of the page that came in.
    pub evictions: Vec<usize>,
    /// Dead places that evictions went over.
    pub skipped: usize,
    /// The most places that a search looked at.
    pub longest: usize,
}

pub struct Log {
    fault: Option<RecencyFault>,
    pages: Vec<u64>,
    dead: Vec<bool>,
    /// For each bucket its last place, counted from 1, or 0.
    heads: Vec<u16>,
    /// For each place the one before it in its bucket, in the same way.
    links: Vec<u16>,
    low: usize,
    now: usize,
    resident: usize,
    touches: usize,
    pub met: Met,
}

impl Log {
    /// A log that holds these pages, most recently used first; none if one of
    /// them comes twice.
    pub fn start(pages: &[u64], fault: Option<RecencyFault>) -> Option<Log> {
        let mut log = Log::empty(fault);
        let mut last_first: Vec<u64> = pages.iter().rev().copied().collect();
        if log.has(StartGoesInForwards) {
            last_first.reverse();
        }
        for (before, page) in last_first.into_iter().enumerate() {
            let is_first = before + 1 == pages.len();
            let is_taken = is_first && log.has(StartLeavesOutTheFirstPage);
            if !is_taken && log.holds(page) {
                return None;
            }
            log.append(page);
        }
        log.resident = pages.len();
        Some(log)
    }

    fn empty(fault: Option<RecencyFault>) -> Log {
        Log {
            fault,
            pages: vec![0; PLACES],
            dead: vec![false; PLACES],
            heads: vec![0; LOG.buckets as usize],
            links: vec![0; PLACES],
            low: 0,
            now: 0,
            resident: 0,
            touches: 0,
            met: Met::default(),
        }
    }

    pub fn resident(&self) -> usize {
        self.resident
    }

    /// The resident pages, most recently used first.
    pub fn pages(&self) -> impl Iterator<Item = u64> {
        self.live().rev().map(|place| self.pages[place])
    }

    /// Uses a page in a cache of this size.
    pub fn touch(&mut self, page: u64, size: usize) -> Touch {
        self.touches += 1;
        let touch = match self.find(page) {
            Some(place) => {
                self.bury(place);
                Touch::Hit
            }
            None if self.resident < size => {
                self.resident += 1;
                Touch::Fetch { evicted: None }
            }
            None => Touch::Fetch {
                evicted: self.evict(),
            },
        };
        self.append(page);
        if self.now == PLACES - usize::from(self.has(PacksOnePlaceEarly)) {
            self.pack();
        }
        touch
    }

    fn has(&self, fault: RecencyFault) -> bool {
        self.fault == Some(fault)
    }

    fn live(&self) -> impl DoubleEndedIterator<Item = usize> {
        (self.low..self.now).filter(|place| !self.dead[*place])
    }

    /// Whether a page of a start stands in the log already.
    fn holds(&mut self, page: u64) -> bool {
        let head = self.heads[self.bucket(page)];
        match self.fault {
            Some(StartTakesABucketForAPage) => head > 0,
            Some(StartLooksAtHeadsAlone) => head > 0 && self.pages[usize::from(head) - 1] == page,
            _ => self.find(page).is_some(),
        }
    }

    /// The last place of a page, if it is in the window.
    fn find(&mut self, page: u64) -> Option<usize> {
        let mut link = self.heads[self.bucket(page)];
        // A chain that is made wrongly may be a ring.
        let most = if self.has(SearchCutsTheChain) {
            CUT
        } else {
            PLACES
        };
        for looks in 1..=most {
            let place = usize::from(link).checked_sub(1)?;
            if !self.is_looked_at(place) {
                return None;
            }
            self.met.longest = self.met.longest.max(looks);
            if self.is_at(place, page) {
                return Some(place);
            }
            link = self.links[place];
        }
        None
    }

    fn is_looked_at(&self, place: usize) -> bool {
        match self.fault {
            Some(SearchIgnoresLow) => true,
            Some(SearchGoesOneTooFar) => place + 2 > self.low,
            Some(SearchStopsOneTooEarly) => place > self.low,
            _ => place + 1 > self.low,
        }
    }

    fn is_at(&self, place: usize, page: u64) -> bool {
        match self.fault {
            Some(SearchTrustsTheBucket) => true,
            Some(SearchComparesLowerHalves) => self.pages[place] as u32 == page as u32,
            _ => self.pages[place] == page,
        }
    }

    fn bury(&mut self, place: usize) {
        match self.fault {
            Some(HitLeavesTheOldPlace) => {}
            Some(HitMarksThePlaceBefore) => self.dead[place.saturating_sub(1)] = true,
            _ => self.dead[place] = true,
        }
    }

    /// The page that goes. Without a fault there is one.
    fn evict(&mut self) -> Option<u64> {
        let place = match self.fault {
            Some(EvictsTheNewest) => self.live().next_back(),
            Some(EvictsTheFirstPlace) => Some(self.low),
            Some(EvictsAfterOneDead) => Some(self.low + usize::from(self.dead[self.low])),
            _ => self.live().next(),
        };
        let place = place.filter(|place| *place < self.now)?;
        self.met.evictions.push(self.now);
        self.met.skipped += place - self.low;
        if !self.has(EvictionLeavesLow) {
            self.low = place + 1;
        }
        Some(self.pages[place])
    }

    fn append(&mut self, page: u64) {
        let place = self.now;
        self.pages[place] = page;
        if !self.has(AppendLeavesTheDeadByte) {
            self.dead[place] = false;
        }
        let before = self.lead(place);
        self.links[place] = if self.has(AppendForgetsTheChain) {
            0
        } else {
            before
        };
        self.now += 1;
    }

    /// Puts a place in front of its bucket's chain; answers what stood there.
    fn lead(&mut self, place: usize) -> u16 {
        let bucket = self.bucket(self.pages[place]);
        std::mem::replace(&mut self.heads[bucket], place as u16 + 1)
    }

    fn bucket(&self, page: u64) -> usize {
        let page = match self.fault {
            Some(BucketsByLowerHalves) => u64::from(page as u32),
            _ => page,
        };
        LOG.bucket(page) as usize
    }

    /// Moves the places that are not dead to the front.
    fn pack(&mut self) {
        self.met.packings.push(self.touches);
        let kept = self.kept();
        if !self.has(PackingLeavesLow) {
            self.low = 0;
        }
        if !self.has(PackingLeavesHeads) && !self.has(PackingLeavesChains) {
            self.heads.fill(0);
        }
        self.now = kept.len();
        for (place, page) in kept.into_iter().enumerate() {
            self.pages[place] = page;
            if !self.has(PackingLeavesDeadBytes) {
                self.dead[place] = false;
            }
            if self.has(PackingLeavesChains) {
                continue;
            }
            let before = self.lead(place);
            if !self.has(PackingLeavesLinks) {
                self.links[place] = before;
            }
        }
    }

    /// What stands in the log once it is packed.
    fn kept(&self) -> Vec<u64> {
        let mut places: Vec<usize> = self.live().collect();
        match self.fault {
            Some(PackingKeepsADeadPlace) => {
                places.extend((self.low..self.now).find(|place| self.dead[*place]));
                places.sort_unstable();
            }
            Some(PackingDropsTheFirst) => drop(places.remove(0)),
            Some(PackingDropsTheLast) => drop(places.pop()),
            _ => {}
        }
        // Where a fault leaves no place dead there would be no room for more.
        let first = places.len().saturating_sub(PLACES - 1);
        places[first..]
            .iter()
            .map(|place| self.pages[*place])
            .collect()
    }
}

#[cfg(test)]
mod tests {
    use super::*;

    fn fetched(evicted: u64) -> Touch {
        Touch::Fetch {
            evicted: Some(evicted),
        }
    }

    #[test]
    fn a_few_steps() {
        let mut log = Log::start(&[5, 6, 7], None).expect("distinct");
        assert_eq!(log.pages().collect::<Vec<_>>(), [5, 6, 7]);
        assert_eq!(log.touch(7, 3), Touch::Hit);
        assert_eq!(log.touch(8, 3), fetched(6));
        assert_eq!(log.pages().collect::<Vec<_>>(), [8, 7, 5]);
        assert_eq!(log.touch(9, 4), Touch::Fetch { evicted: None });
        assert_eq!((log.resident(), log.low, log.now), (4, 2, 6));
        assert_eq!((log.met.skipped, log.met.evictions.len()), (1, 1));
    }

    #[test]
    fn a_page_twice() {
        assert!(Log::start(&[5, 6, 5], None).is_none());
        assert!(Log::start(&[5, 6, 6], None).is_none());
        assert!(Log::start(&[5, 6, 5], Some(StartLeavesOutTheFirstPage)).is_some());
        assert!(Log::start(&[5, 6, 6], Some(StartLeavesOutTheFirstPage)).is_none());
    }

    /// With r pages left the next packing comes 8,192 - r items later.
    #[test]
    fn when_it_is_packed() {
        let mut log = Log::start(&[], None).expect("distinct");
        for number in 0..3 * PLACES as u64 {
            log.touch(number % 100, 100);
        }
        assert_eq!(log.met.packings, [8_192, 16_284, 24_376]);
        assert_eq!((log.low, log.now), (0, 100 + 24_576 - 24_376));
    }
}
