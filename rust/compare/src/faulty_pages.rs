//! Libraries to which page 0 or the last page is not a page like the others, by
//! one fault, or to which all are.

use crate::page_faults::PageFault::*;
pub use crate::page_faults::{ALL, PageFault};
use reference::Reference;
use types::event::NOTHING;
use types::layout::{HEADER_BYTES, ITEM_BYTES, file_bytes, item_bytes};
use types::{Frame, Header, Item, Library, NUMBERS_PER_EVENT, Refusal, Summary};

const LAST: u64 = u64::MAX;

/// The reference with another idea of the two pages.
pub struct FaultyPages(pub Option<PageFault>);

impl Library for FaultyPages {
    fn check(&self, file: &[u8]) -> Result<Header, Refusal> {
        let answer = Reference.check(&self.as_read(file));
        match self.0 {
            Some(RefusesTheLastPage) => refused_with_5(file, answer),
            _ => answer,
        }
    }

    fn reduce(
        &self,
        file: &[u8],
        mode: u64,
        filter: u64,
        out: &mut [u8],
    ) -> Result<Header, Refusal> {
        self.check(file)?;
        let file = self.made_strange(self.as_read(file));
        let header = Reference.reduce(&file, mode, filter, out)?;
        let written = &mut out[..file_bytes(header.items as usize)];
        each_item(written, |item| item.page = self.known(item.page));
        Ok(header)
    }

    fn join(&self, first: &[u8], second: &[u8], out: &mut [u8]) -> Result<Header, Refusal> {
        self.check(first)?;
        self.check(second).map_err(Refusal::in_second)?;
        Reference.join(&self.as_read(first), &self.as_read(second), out)
    }

    fn replay(
        &self,
        file: &[u8],
        size: u64,
        cache: &mut [Frame],
        resident: usize,
        events: &mut [u64],
    ) -> Result<Summary, (Refusal, u64)> {
        let refused = |refusal| (refusal, resident as u64);
        self.check(file).map_err(refused)?;
        let file = self.made_strange(self.as_read(file));
        let (mut frames, mut numbers) = (cache.to_vec(), events.to_vec());
        self.make_start_strange(frames.get_mut(..resident).unwrap_or(&mut []));
        let answer = Reference.replay(&file, size, &mut frames, resident, &mut numbers);
        if self.refuses_start(cache, resident, &answer) {
            return Err(refused(Refusal::new(10)));
        }
        let summary = answer?;
        for (place, frame) in cache.iter_mut().zip(frames) {
            let page = self.known(frame.page);
            *place = Frame { page, ..frame };
        }
        for (place, number) in events.iter_mut().zip(numbers) {
            *place = self.known(number);
        }
        let fetched = NUMBERS_PER_EVENT * summary.fetches as usize;
        Ok(self.spoil(summary, &mut events[..fetched]))
    }
}

/// The answer of a checker that looks for the last page after the tag of an item
/// and before its time.
fn refused_with_5(file: &[u8], answer: Result<Header, Refusal>) -> Result<Header, Refusal> {
    let looked_at = match answer {
        Ok(header) => header.items,
        Err(Refusal {
            number: 4, item, ..
        }) => item,
        Err(Refusal {
            number: 6, item, ..
        }) => item + 1,
        Err(_) => return answer,
    };
    let is_last = |item: Item| item.page == LAST;
    let found = reference::items(file)
        .take(looked_at as usize)
        .position(is_last);
    found.map_or(answer, |item| Err(Refusal::of_item(5, item as u64)))
}

impl FaultyPages {
    /// The file with each time that may fall here raised to the one before.
    fn as_read(&self, file: &[u8]) -> Vec<u8> {
        let (mut file, mut before) = (file.to_vec(), 0);
        if self.0 == Some(OverlooksAFallAtTheLastPage) {
            each_item(&mut file, |item| {
                if item.page == LAST {
                    item.time = item.time.max(before);
                }
                before = item.time;
            });
        }
        file
    }

    /// The page that is not known again.
    fn unknown(&self) -> Option<u64> {
        match self.0 {
            Some(NeverFindsTheLastPage) => Some(LAST),
            Some(NeverFindsPage0) => Some(0),
            _ => None,
        }
    }

    /// The file with a stranger in each item of the page that is not known.
    fn made_strange(&self, mut file: Vec<u8>) -> Vec<u8> {
        let mut strangers = STRANGERS;
        if let Some(page) = self.unknown() {
            each_item(&mut file, |item| {
                if item.page == page {
                    item.page = strangers.next().expect("more than there are items");
                }
            });
        }
        file
    }

    /// The same in a start. There it is one stranger, so that a page that comes
    /// twice still does. Where that is overlooked, all but the first are made so.
    fn make_start_strange(&self, start: &mut [Frame]) {
        if self.0 == Some(TakesTheLastPageTwice) {
            for (frame, stranger) in of_page(start, LAST).skip(1).zip(STRANGERS) {
                frame.page = stranger;
            }
        }
        if let Some(page) = self.unknown() {
            of_page(start, page).for_each(|frame| frame.page = STRANGERS.end);
        }
    }

    /// The page itself again for those that stood in for it.
    fn known(&self, page: u64) -> u64 {
        let is_strange = (STRANGERS.start..=STRANGERS.end).contains(&page);
        match self.0 {
            Some(NeverFindsTheLastPage | TakesTheLastPageTwice) if is_strange => LAST,
            Some(NeverFindsPage0) if is_strange => 0,
            _ => page,
        }
    }

    /// Whether a start is refused that the reference comes to and takes.
    fn refuses_start(
        &self,
        cache: &[Frame],
        resident: usize,
        answer: &Result<Summary, (Refusal, u64)>,
    ) -> bool {
        let comes_to_it = match answer {
            Ok(_) => true,
            Err((refusal, _)) => refusal.number == 11,
        };
        let is_last = |frame: &Frame| frame.page == LAST;
        comes_to_it
            && self.0 == Some(RefusesTheLastPageInAStart)
            && cache[..resident].iter().any(is_last)
    }

    /// Other events, or another count of their evictions.
    fn spoil(&self, mut summary: Summary, events: &mut [u64]) -> Summary {
        let (events, _) = events.as_chunks_mut::<NUMBERS_PER_EVENT>();
        for [_, _, page, what] in events.iter_mut() {
            match (self.0, *page) {
                (Some(TellsTheLastPageForNothing), _) if *what == NOTHING => *page = LAST,
                (Some(WrapsTheLastPage), LAST) => *page = 0,
                (Some(TellsNothingForTheLastPage), LAST) => (*page, *what) = (0, NOTHING),
                (Some(TellsNothingForPage0), 0) => *what = NOTHING,
                _ => {}
            }
        }
        let other_than = |nothing: u64| events.iter().filter(|event| event[2] != nothing).count();
        match self.0 {
            Some(CountsPage0ForNothing) => summary.evictions = other_than(0) as u64,
            Some(CountsTheLastPageForNothing) => summary.evictions = other_than(LAST) as u64,
            _ => {}
        }
        summary
    }
}

/// Pages that stand in for one that is not known, for as many items as a file
/// can have. No page of a test is near them.
const STRANGERS: std::ops::Range<u64> = FIRST_STRANGE..FIRST_STRANGE + MOST_STRANGE;
const FIRST_STRANGE: u64 = 0xABCD_EF01_2345_6789;
const MOST_STRANGE: u64 = 1 << 20;

fn of_page(start: &mut [Frame], page: u64) -> impl Iterator<Item = &mut Frame> {
    start.iter_mut().filter(move |frame| frame.page == page)
}

/// Changes the pages and the times of a file's items. Their tags and lengths
/// stay, good or not.
fn each_item(file: &mut [u8], mut change: impl FnMut(&mut Item)) {
    if file.len() < HEADER_BYTES {
        return;
    }
    let items: Vec<Item> = reference::items(file).collect();
    let rows = file[HEADER_BYTES..].chunks_exact_mut(ITEM_BYTES);
    for (row, mut item) in rows.zip(items) {
        change(&mut item);
        row[PAGE..].copy_from_slice(&item_bytes(item)[PAGE..]);
    }
}

/// Where an item's page starts in its bytes; its time comes after it.
const PAGE: usize = 3;
