//! Libraries that handle writes plainly, with one fault in that or none.

use crate::faulty::rewrite;
use crate::written_faults::WriteFault::*;
pub use crate::written_faults::{ALL, WriteFault};
use crate::written_lru::List;
use crate::written_slim::kept;
use reference::Reference;
use std::collections::HashSet;
use types::layout::{HEADER_BYTES, ITEM_BYTES, WRITE_TAG};
use types::{Frame, Header, Item, Library, NUMBERS_PER_EVENT, Refusal, Summary};

/// The reference with marks of its own in reductions and replays.
pub struct FaultyWrites(pub Option<WriteFault>);

impl Library for FaultyWrites {
    fn check(&self, file: &[u8]) -> Result<Header, Refusal> {
        Reference.check(&self.as_read(file))
    }

    fn reduce(
        &self,
        file: &[u8],
        mode: u64,
        filter: u64,
        out: &mut [u8],
    ) -> Result<Header, Refusal> {
        let (file, before) = (self.as_read(file), out.to_vec());
        let header = Reference.reduce(&file, mode, filter, out)?;
        let items: Vec<Item> = reference::items(&file).collect();
        let kept = kept(&items, mode, filter as usize, self.0);
        Ok(rewrite(header, &kept, &before, out))
    }

    fn join(&self, first: &[u8], second: &[u8], out: &mut [u8]) -> Result<Header, Refusal> {
        Reference.join(&self.as_read(first), &self.as_read(second), out)
    }

    fn replay(
        &self,
        file: &[u8],
        size: u64,
        cache: &mut [Frame],
        resident: usize,
        events: &mut [u64],
    ) -> Result<Summary, (Refusal, u64)> {
        let file = self.as_read(file);
        self.admit(&file, size, cache, resident, events.len())
            .map_err(|refusal| (refusal, resident as u64))?;
        let mut list = List::start(size as usize, &cache[..resident], self.0);
        let summary = step_over(&mut list, reference::items(&file), events);
        self.leave(&list.frames, cache);
        Ok(summary)
    }
}

impl FaultyWrites {
    /// The file with what this takes for a write turned into one.
    fn as_read(&self, file: &[u8]) -> Vec<u8> {
        let mut file = file.to_vec();
        if self.0 == Some(TakesTagSeven) && file.len() > HEADER_BYTES {
            let tags = file[HEADER_BYTES..].iter_mut().step_by(ITEM_BYTES);
            tags.filter(|tag| **tag == WRITE_TAG + 1)
                .for_each(|tag| *tag = WRITE_TAG);
        }
        file
    }

    /// The refusals of the reference, but for those that a fault leaves out.
    fn admit(
        &self,
        file: &[u8],
        size: u64,
        cache: &[Frame],
        resident: usize,
        room: usize,
    ) -> Result<(), Refusal> {
        let mut lent = cache.to_vec();
        if self.0 == Some(TakesAPageTwice) {
            tell_apart(lent.get_mut(..resident).unwrap_or(&mut []));
        }
        let room = match self.0 {
            Some(TakesRoomOfThree) => room + room.div_ceil(NUMBERS_PER_EVENT - 1),
            _ => room,
        };
        let answer = Reference.replay(file, size, &mut lent, resident, &mut vec![0; room]);
        answer.map(|_| ()).map_err(|(refusal, _)| refusal)
    }

    fn leave(&self, frames: &[Frame], cache: &mut [Frame]) {
        let before = cache.to_vec();
        cache[..frames.len()].copy_from_slice(frames);
        match self.0 {
            Some(ExchangesTwoMarks) if frames.len() > 1 => {
                (cache[0].written, cache[1].written) = (cache[1].written, cache[0].written);
            }
            Some(LeavesTheMarksInTheirPlaces) => {
                let pairs = cache.iter_mut().zip(before);
                pairs.for_each(|(frame, before)| frame.written = before.written);
            }
            Some(ClearsMarksBeyond) => {
                let beyond = cache[frames.len()..].iter_mut();
                beyond.for_each(|frame| frame.written = false);
            }
            _ => {}
        }
    }
}

/// Gives a page that comes twice, with two marks, another number where it is
/// written, so that nobody sees that it does.
fn tell_apart(start: &mut [Frame]) {
    let clean: HashSet<u64> = start
        .iter()
        .filter(|frame| !frame.written)
        .map(|frame| frame.page)
        .collect();
    let written = start.iter_mut().filter(|frame| frame.written);
    for (number, frame) in written
        .filter(|frame| clean.contains(&frame.page))
        .enumerate()
    {
        frame.page = STRANGE - number as u64;
    }
}

/// No page of a test is near this.
const STRANGE: u64 = 0xABCD_EF01_2345_6789;

/// Where a fault has left too little room the events that do not fit are lost.
fn step_over(list: &mut List, items: impl Iterator<Item = Item>, events: &mut [u64]) -> Summary {
    let (mut count, mut fetches) = (0, 0);
    let mut places = events.chunks_exact_mut(NUMBERS_PER_EVENT);
    for item in items {
        count += 1;
        let Some(event) = list.touch(item) else {
            continue;
        };
        fetches += 1;
        if let Some(place) = places.next() {
            place.copy_from_slice(&event);
        }
    }
    Summary {
        items: count,
        fetches,
        evictions: list.evictions,
        resident: list.frames.len() as u64,
        permillion: (fetches * 1_000_000).checked_div(count).unwrap_or(0),
    }
}
