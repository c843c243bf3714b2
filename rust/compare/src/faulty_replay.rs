//! Libraries whose replay keeps a log of pages, with one fault in it or none.

use crate::recency::{Log, Met, Touch};
pub use crate::recency_faults::{ALL, HARMLESS, RecencyFault};
use reference::Reference;
use std::collections::HashSet;
use types::event::{NOTHING, event};
use types::{Frame, Header, Item, Library, NUMBERS_PER_EVENT, Refusal, Summary};

/// The reference with another replay.
pub struct FaultyReplay(pub Option<RecencyFault>);

impl Library for FaultyReplay {
    fn check(&self, file: &[u8]) -> Result<Header, Refusal> {
        Reference.check(file)
    }

    fn reduce(
        &self,
        file: &[u8],
        mode: u64,
        filter: u64,
        out: &mut [u8],
    ) -> Result<Header, Refusal> {
        Reference.reduce(file, mode, filter, out)
    }

    fn join(&self, first: &[u8], second: &[u8], out: &mut [u8]) -> Result<Header, Refusal> {
        Reference.join(first, second, out)
    }

    fn replay(
        &self,
        file: &[u8],
        size: u64,
        cache: &mut [Frame],
        resident: usize,
        events: &mut [u64],
    ) -> Result<Summary, (Refusal, u64)> {
        let mut cached = self
            .admit(file, size, cache, resident, events.len())
            .map_err(|refusal| (refusal, resident as u64))?;
        let items = reference::items(file);
        let summary = step_over(&mut cached, items, size as usize, events);
        for (place, frame) in cache.iter_mut().zip(cached.frames()) {
            *place = frame;
        }
        Ok(summary)
    }
}

impl FaultyReplay {
    /// The log of a start, if nothing is refused. All refusals are the
    /// reference's but those of the start, of which that of a page that comes
    /// twice is found by the log: the reference is asked without a start.
    fn admit(
        &self,
        file: &[u8],
        size: u64,
        cache: &[Frame],
        resident: usize,
        room: usize,
    ) -> Result<Cached, Refusal> {
        let (mut lent, mut events) = (cache.to_vec(), vec![0; room]);
        let answer = Reference.replay(file, size, &mut lent, 0, &mut events);
        let refusal = answer.err().map(|(refusal, _)| refusal);
        if let Some(early) = refusal.filter(|refusal| refusal.number <= 10) {
            return Err(early);
        }
        let start = cache.get(..resident);
        let start = start.filter(|start| start.len() as u64 <= size);
        let cached = start.and_then(|start| Cached::start(start, self.0));
        match (cached, refusal) {
            (None, _) => Err(Refusal::new(10)),
            (_, Some(late)) => Err(late),
            (Some(cached), None) => Ok(cached),
        }
    }
}

/// A log and, beside it, which of its pages are written. The log knows pages
/// alone: what can be wrong with their marks when it is packed is done here.
struct Cached {
    log: Log,
    written: HashSet<u64>,
    fault: Option<RecencyFault>,
}

impl Cached {
    fn start(frames: &[Frame], fault: Option<RecencyFault>) -> Option<Cached> {
        let pages: Vec<u64> = frames.iter().map(|frame| frame.page).collect();
        let written = frames.iter().filter(|frame| frame.written);
        Some(Cached {
            log: Log::start(&pages, fault)?,
            written: written.map(|frame| frame.page).collect(),
            fault,
        })
    }

    /// The event of an item, if it is a fetch.
    fn touch(&mut self, item: Item, size: usize) -> Option<[u64; NUMBERS_PER_EVENT]> {
        let packings = self.log.met.packings.len();
        let told = match self.log.touch(item.page, size) {
            Touch::Hit => None,
            Touch::Fetch { evicted } => {
                let evicted = evicted.map(|page| Frame {
                    page,
                    written: self.written.remove(&page),
                });
                Some(event(item.time, item.page, evicted))
            }
        };
        if item.written {
            self.written.insert(item.page);
        }
        if self.log.met.packings.len() > packings {
            self.spoil_marks();
        }
        told
    }

    fn spoil_marks(&mut self) {
        match self.fault {
            Some(RecencyFault::PackingClearsMarks) => self.written.clear(),
            Some(RecencyFault::PackingShiftsMarks) => {
                let frames: Vec<Frame> = self.frames().collect();
                let pairs = frames.windows(2).filter(|pair| pair[1].written);
                self.written = pairs.map(|pair| pair[0].page).collect();
            }
            _ => {}
        }
    }

    fn frames(&self) -> impl Iterator<Item = Frame> {
        self.log.pages().map(|page| Frame {
            page,
            written: self.written.contains(&page),
        })
    }
}

fn step_over(
    cached: &mut Cached,
    items: impl Iterator<Item = Item>,
    size: usize,
    events: &mut [u64],
) -> Summary {
    let (mut count, mut fetches, mut evictions) = (0, 0, 0);
    let mut places = events.chunks_exact_mut(NUMBERS_PER_EVENT);
    for item in items {
        count += 1;
        if let Some(event) = cached.touch(item, size) {
            let place = places.next().expect("room for each fetch");
            place.copy_from_slice(&event);
            fetches += 1;
            evictions += u64::from(event[3] != NOTHING);
        }
    }
    Summary {
        items: count,
        fetches,
        evictions,
        resident: cached.log.resident() as u64,
        permillion: (fetches * 1_000_000).checked_div(count).unwrap_or(0),
    }
}

/// What a log without a fault meets in these pages, started with distinct ones.
pub fn met(row: &[u64], size: u64, start: &[u64]) -> Met {
    let mut log = Log::start(start, None).expect("distinct pages");
    for page in row {
        log.touch(*page, size as usize);
    }
    log.met
}
