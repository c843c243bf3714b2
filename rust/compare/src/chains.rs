//! A filter of chains like that of the proved reducer, with one fault or
//! none. For each page it notes the page's last item; a page is found from
//! its bucket's head along a chain of places, and read at the item noted.
//! Here the first item is noted too, and one pass over the items decides; how
//! the proved reducer's second pass finds what is noted has no counterpart.

use crate::buckets::FILTER;
use types::Item;

const PLACES: usize = 1024;

/// After so many links the places are gone through one by one.
const LINKS: usize = 8;

/// The most that a head can hold.
const LAST_NUMBER: usize = 65_535;

/// What can be wrong with a filter of chains.
#[derive(Clone, Copy, Debug, PartialEq, Eq)]
pub enum FilterFault {
    /// Emptied, it still takes the places of the epoch before for its own.
    KeepsTheEpochBefore,
    /// A page is not found where more than eight others came into its bucket
    /// after it.
    CutsTheChain,
    /// Where eight links are not enough, all places but the first are tried.
    LeavesOutTheFirstPlace,
    /// Takes the last page of a bucket for the one that is looked for.
    TrustsTheBucket,
    /// Takes pages for the same that differ in their upper halves only.
    ComparesLowerHalves,
    /// The last of the 1,024 places is never used.
    EmptiesOnePageTooEarly,
    /// Heads are never cleared: beyond the last number no page is found.
    NeverClears,
    /// Heads are cleared one number too late: the page with that number is lost.
    ClearsTooLate,
    /// Beyond the last number it counts from 0 again and leaves the heads as
    /// they are: a place of the epoch before is taken for one of this.
    TakesAStalePlace,
    /// An item's number is cut to two bytes.
    NotesInTwoBytes,
}

use FilterFault::*;

pub const ALL: [FilterFault; 10] = [
    KeepsTheEpochBefore,
    CutsTheChain,
    LeavesOutTheFirstPlace,
    TrustsTheBucket,
    ComparesLowerHalves,
    EmptiesOnePageTooEarly,
    NeverClears,
    ClearsTooLate,
    TakesAStalePlace,
    NotesInTwoBytes,
];

/// How often a filter came to what a plain trace does not bring it to.
#[derive(Clone, Copy, Debug, Default, PartialEq, Eq)]
pub struct Met {
    /// Searches in which eight links were not enough.
    pub long_chains: u64,
    /// Looks at a head that an earlier epoch has left.
    pub stale_heads: u64,
    pub clears: u64,
}

pub struct Filter<'a> {
    items: &'a [Item],
    fault: Option<FilterFault>,
    first: [usize; PLACES],
    last: [usize; PLACES],
    /// Whether a write of the place's page was dropped.
    dropped_a_write: [bool; PLACES],
    heads: [u16; FILTER.buckets as usize],
    next: [u16; PLACES],
    held: usize,
    /// What a head holds up to this is of an earlier epoch.
    base: usize,
    pub met: Met,
}

impl<'a> Filter<'a> {
    pub fn new(items: &'a [Item], fault: Option<FilterFault>) -> Self {
        Filter {
            items,
            fault,
            first: [0; PLACES],
            last: [0; PLACES],
            dropped_a_write: [false; PLACES],
            heads: [0; FILTER.buckets as usize],
            next: [0; PLACES],
            held: 0,
            base: 0,
            met: Met::default(),
        }
    }

    pub fn is_full(&self, size: usize) -> bool {
        match self.fault {
            Some(EmptiesOnePageTooEarly) => self.held == size.min(PLACES - 1),
            _ => self.held == size,
        }
    }

    /// The place of an item's page, if the filter holds it. Whether the place
    /// is one of those held is not asked: it is, without a fault, and to ask
    /// would hide from every answer that a chain leads out of the epoch.
    pub fn find(&mut self, item: usize) -> Option<usize> {
        let page = self.items[item].page;
        let mut link = self.head(page);
        for _ in 0..=LINKS {
            // Without a fault there is no link beyond the places.
            let place = link.checked_sub(1)? % PLACES;
            if self.is_at(place, page) || self.fault == Some(TrustsTheBucket) {
                return Some(place);
            }
            link = usize::from(self.next[place]);
        }
        self.met.long_chains += 1;
        let from = usize::from(self.fault == Some(LeavesOutTheFirstPlace));
        match self.fault {
            Some(CutsTheChain) => None,
            _ => (from..self.held).find(|place| self.is_at(*place, page)),
        }
    }

    /// The first and the last item of a place's page. The given one is the
    /// last from now on.
    pub fn meet(&mut self, place: usize, item: usize) -> (usize, usize) {
        let before = (self.first[place], self.last[place]);
        self.last[place] = self.noted(item);
        before
    }

    /// Takes in the page of an item, which it does not hold.
    pub fn add(&mut self, item: usize) {
        let page = self.items[item].page;
        let place = self.held;
        self.next[place] = self.head(page) as u16;
        self.heads[FILTER.bucket(page) as usize] = (self.base + place + 1) as u16;
        self.first[place] = item;
        self.last[place] = self.noted(item);
        self.dropped_a_write[place] = false;
        self.held += 1;
    }

    /// An item of a place's page is not kept.
    pub fn note_dropped(&mut self, place: usize, item: Item) {
        self.dropped_a_write[place] |= item.written;
    }

    /// The last items of the pages held of which a write was dropped.
    pub fn lasts_to_mark(&self) -> impl Iterator<Item = usize> {
        let places = (0..self.held).filter(|place| self.dropped_a_write[*place]);
        places.map(|place| self.last[place])
    }

    pub fn empty(&mut self) {
        let above = self.base + std::mem::take(&mut self.held);
        let last_number = match self.fault {
            Some(KeepsTheEpochBefore) => return,
            Some(NeverClears) => usize::MAX,
            Some(ClearsTooLate) => LAST_NUMBER + 1,
            _ => LAST_NUMBER,
        };
        if above + PLACES <= last_number {
            self.base = above;
            return;
        }
        self.base = 0;
        self.met.clears += 1;
        if self.fault != Some(TakesAStalePlace) {
            self.heads.fill(0);
        }
    }

    /// The last place of a page's bucket, counted from 1, or 0.
    fn head(&mut self, page: u64) -> usize {
        let number = usize::from(self.heads[FILTER.bucket(page) as usize]);
        self.met.stale_heads += u64::from(0 < number && number <= self.base);
        number.saturating_sub(self.base)
    }

    fn is_at(&self, place: usize, page: u64) -> bool {
        let there = self.items[self.last[place]].page;
        match self.fault {
            Some(ComparesLowerHalves) => there as u32 == page as u32,
            _ => there == page,
        }
    }

    fn noted(&self, item: usize) -> usize {
        match self.fault {
            Some(NotesInTwoBytes) => item & 0xFFFF,
            _ => item,
        }
    }
}
