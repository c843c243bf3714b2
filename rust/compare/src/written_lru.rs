//! LRU on a plain list of frames, with one fault in its marks or none.

use crate::written_faults::WriteFault::{self, *};
use types::event::{CLEAN, WRITTEN, event};
use types::{Frame, Item, NUMBERS_PER_EVENT};

pub struct List {
    size: usize,
    /// Most recently used first.
    pub frames: Vec<Frame>,
    /// Counted here, since a fault may tell another number of them.
    pub evictions: u64,
    fault: Option<WriteFault>,
}

impl List {
    pub fn start(size: usize, frames: &[Frame], fault: Option<WriteFault>) -> List {
        let mut frames = frames.to_vec();
        if fault == Some(StartsClean) {
            frames.iter_mut().for_each(|frame| frame.written = false);
        }
        List {
            size,
            frames,
            evictions: 0,
            fault,
        }
    }

    /// The event of an item, if it is a fetch.
    pub fn touch(&mut self, item: Item) -> Option<[u64; NUMBERS_PER_EVENT]> {
        let is_it = |frame: &Frame| frame.page == item.page;
        if let Some(place) = self.frames.iter().position(is_it) {
            let frame = self.frames.remove(place);
            self.frames.insert(0, self.hit(frame, item.written));
            return None;
        }
        let is_full = self.frames.len() == self.size;
        let evicted = if is_full { self.frames.pop() } else { None };
        self.evictions += u64::from(evicted.is_some());
        let frame = self.fetched(item, evicted);
        self.frames.insert(0, frame);
        Some(self.told(item, evicted))
    }

    fn hit(&self, frame: Frame, written: bool) -> Frame {
        let written = match self.fault {
            Some(HitClearsTheMark) => written,
            Some(HitByAWriteIsForgotten) => frame.written,
            _ => frame.written || written,
        };
        Frame { written, ..frame }
    }

    fn fetched(&self, item: Item, evicted: Option<Frame>) -> Frame {
        let written = match (self.fault, evicted) {
            (Some(FetchByAWriteIsClean), _) => false,
            (Some(FetchTakesOverTheMark), Some(gone)) => gone.written || item.written,
            _ => item.written,
        };
        let page = item.page;
        Frame { page, written }
    }

    fn told(&self, item: Item, evicted: Option<Frame>) -> [u64; NUMBERS_PER_EVENT] {
        let mut event = event(item.time, item.page, evicted);
        let of_the_fetched = if item.written { WRITTEN } else { CLEAN };
        match (self.fault, evicted) {
            (Some(TellsEveryPageClean), Some(_)) => event[3] = CLEAN,
            (Some(TellsOfThePageFetched), Some(_)) => event[3] = of_the_fetched,
            (Some(TellsOfNothing), None) => event[3] = CLEAN,
            _ => {}
        }
        event
    }
}
