//! Implementations with one fault each. The comparison is only worth its
//! time if it finds every one of them.

use reference::Reference;
use std::collections::{HashSet, VecDeque};
use types::layout::{encode, file_bytes, put_header};
use types::{Frame, Header, Item, Library, NUMBERS_PER_EVENT, Refusal, Summary};

#[derive(Clone, Copy, Debug, PartialEq, Eq)]
pub enum Fault {
    RefusesEveryReduction,
    WritesAnEmptyTrace,
    CopiesItsInput,
    KeepsOnlyMisses,
    TreatsTheFilterAsACache,
    WritesLastsAtTheEnd,
    DropsLastsOfUnfinishedEpoch,
    WritesOneByteTooMany,
    ForgetsTheMode,
    ChecksRoomBeforeKind,
    RefusesEqualTimes,
    NamesTheFirstTraceAlways,
    JoinLooksAtCountsFirst,
    JoinTakesTheSmallerFilter,
    JoinPutsTheSecondFirst,
    JoinDropsTheSecondsFirst,
    JoinDropsTheFirstsLast,
    ReplayTouchesNothing,
    ReplayInventsAfterTheFirst,
    CountsOneFetchTooMany,
    ClearsUnusedEvents,
    ReadsBeyondTheResident,
    ForgetsTheResidentCount,
    LeavesTheCacheInAnotherOrder,
}

use Fault::*;

pub const ALL: [Fault; 24] = [
    RefusesEveryReduction,
    WritesAnEmptyTrace,
    CopiesItsInput,
    KeepsOnlyMisses,
    TreatsTheFilterAsACache,
    WritesLastsAtTheEnd,
    DropsLastsOfUnfinishedEpoch,
    WritesOneByteTooMany,
    ForgetsTheMode,
    ChecksRoomBeforeKind,
    RefusesEqualTimes,
    NamesTheFirstTraceAlways,
    JoinLooksAtCountsFirst,
    JoinTakesTheSmallerFilter,
    JoinPutsTheSecondFirst,
    JoinDropsTheSecondsFirst,
    JoinDropsTheFirstsLast,
    ReplayTouchesNothing,
    ReplayInventsAfterTheFirst,
    CountsOneFetchTooMany,
    ClearsUnusedEvents,
    ReadsBeyondTheResident,
    ForgetsTheResidentCount,
    LeavesTheCacheInAnotherOrder,
];

/// The reference with one fault.
pub struct Faulty(pub Fault);

impl Library for Faulty {
    fn check(&self, file: &[u8]) -> Result<Header, Refusal> {
        let header = Reference.check(file)?;
        let items = items(file);
        match items.windows(2).position(|two| two[0].time == two[1].time) {
            Some(before) if self.0 == RefusesEqualTimes => {
                Err(Refusal::of_item(6, before as u64 + 1))
            }
            _ => Ok(header),
        }
    }

    fn reduce(
        &self,
        file: &[u8],
        mode: u64,
        filter: u64,
        out: &mut [u8],
    ) -> Result<Header, Refusal> {
        match self.0 {
            RefusesEveryReduction => return Err(Refusal::new(7)),
            ChecksRoomBeforeKind if out.len() < file.len() && Reference.check(file).is_ok() => {
                return Err(Refusal::new(11));
            }
            ForgetsTheMode if mode == 1 => return Reference.reduce(file, 2, filter, out),
            _ => {}
        }
        let before = out.to_vec();
        let header = Reference.reduce(file, mode, filter, out)?;
        Ok(self.spoil_reduction(file, header, &before, out))
    }

    fn join(&self, first: &[u8], second: &[u8], out: &mut [u8]) -> Result<Header, Refusal> {
        let before = out.to_vec();
        let answer = Reference.join(first, second, out);
        match (self.0, answer) {
            (NamesTheFirstTraceAlways, Err(refusal)) => Err(Refusal {
                trace: 1,
                ..refusal
            }),
            (JoinLooksAtCountsFirst, Err(refusal)) if refusal.number == 12 => {
                let sum = Reference.check(first)?.references + Reference.check(second)?.references;
                Err(Refusal::new(if sum >> 32 > 0 { 13 } else { 12 }))
            }
            (JoinTakesTheSmallerFilter, Ok(header)) => {
                let filters = (
                    Reference.check(first)?.filter,
                    Reference.check(second)?.filter,
                );
                let filter = filters.0.min(filters.1);
                let header = Header { filter, ..header };
                put_header(out, &header);
                Ok(header)
            }
            (_, Ok(header)) => Ok(self.spoil_join([first, second], header, &before, out)),
            (_, refused) => refused,
        }
    }

    fn replay(
        &self,
        file: &[u8],
        size: u64,
        cache: &mut [Frame],
        resident: usize,
        events: &mut [u64],
    ) -> Result<Summary, (Refusal, u64)> {
        let (old_cache, old_events) = (cache.to_vec(), events.to_vec());
        let resident = match self.0 {
            ReadsBeyondTheResident
                if resident > 0 && resident < (size as usize).min(cache.len()) =>
            {
                resident + 1
            }
            _ => resident,
        };
        let answer = Reference.replay(file, size, cache, resident, events);
        match answer {
            Err((refusal, _)) if self.0 == ForgetsTheResidentCount => Err((refusal, 0)),
            Err(refused) => Err(refused),
            Ok(summary) => {
                let old = (&old_cache[..], &old_events[..]);
                Ok(self.spoil_replay(summary, old, cache, events))
            }
        }
    }
}

impl Faulty {
    /// Writes a reduction once more, wrongly.
    fn spoil_reduction(
        &self,
        file: &[u8],
        header: Header,
        before: &[u8],
        out: &mut [u8],
    ) -> Header {
        let kept = items(&out[..file_bytes(header.items as usize)]);
        let items = self.spoil_kept(items(file), kept, header.filter as usize);
        let end = file_bytes(items.len());
        let header = rewrite(header, &items, before, out);
        if self.0 == WritesOneByteTooMany && end < out.len() {
            out[end] = out[end].wrapping_add(1);
        }
        header
    }

    /// Other items than those that should be kept.
    fn spoil_kept(&self, all: Vec<Item>, kept: Vec<Item>, filter: usize) -> Vec<Item> {
        let (firsts, last_epoch) = firsts(&all, filter);
        match self.0 {
            WritesAnEmptyTrace => Vec::new(),
            CopiesItsInput => all,
            KeepsOnlyMisses => firsts.iter().map(|place| all[*place]).collect(),
            TreatsTheFilterAsACache => cache_misses(&all, filter),
            WritesLastsAtTheEnd => {
                let is_first = |item: &Item| firsts.iter().any(|place| all[*place] == *item);
                let (mut early, late): (Vec<Item>, _) = kept.into_iter().partition(is_first);
                early.extend(late);
                early
            }
            DropsLastsOfUnfinishedEpoch => {
                let is_dropped = |item: &&Item| {
                    let place = all.iter().rposition(|other| other == *item);
                    place.is_some_and(|place| place >= last_epoch && !firsts.contains(&place))
                };
                kept.iter()
                    .filter(|item| !is_dropped(item))
                    .copied()
                    .collect()
            }
            _ => kept,
        }
    }

    /// Writes a joined file once more, with other items or in another order.
    fn spoil_join(
        &self,
        files: [&[u8]; 2],
        header: Header,
        before: &[u8],
        out: &mut [u8],
    ) -> Header {
        let (first, second) = (items(files[0]), items(files[1]));
        let end = first.len();
        // A file that had references without items would be refused at once.
        let can_drop = !first.is_empty() && !second.is_empty();
        let mut joined = [first, second].concat();
        match self.0 {
            JoinPutsTheSecondFirst => joined.rotate_left(end),
            JoinDropsTheSecondsFirst if can_drop => drop(joined.remove(end)),
            JoinDropsTheFirstsLast if can_drop => drop(joined.remove(end - 1)),
            _ => return header,
        }
        rewrite(header, &joined, before, out)
    }

    fn spoil_replay(
        &self,
        mut summary: Summary,
        old: (&[Frame], &[u64]),
        cache: &mut [Frame],
        events: &mut [u64],
    ) -> Summary {
        let fetched = NUMBERS_PER_EVENT * summary.fetches as usize;
        match self.0 {
            ReplayTouchesNothing => {
                cache.copy_from_slice(old.0);
                events.copy_from_slice(old.1);
            }
            ReplayInventsAfterTheFirst if summary.fetches > 1 => {
                events[NUMBERS_PER_EVENT..fetched].fill(1);
            }
            CountsOneFetchTooMany => summary.fetches += 1,
            ClearsUnusedEvents => events[fetched..].fill(0),
            LeavesTheCacheInAnotherOrder if summary.resident > 1 => cache.swap(0, 1),
            _ => {}
        }
        summary
    }
}

/// Writes a file of other items over what a call has written, into the buffer
/// as it was before the call.
pub(crate) fn rewrite(header: Header, items: &[Item], before: &[u8], out: &mut [u8]) -> Header {
    let header = Header {
        items: items.len() as u64,
        ..header
    };
    let bytes = encode(&header, items);
    out.copy_from_slice(before);
    out[..bytes.len()].copy_from_slice(&bytes);
    header
}

fn items(file: &[u8]) -> Vec<Item> {
    reference::items(file).collect()
}

/// The places of the first items of each epoch, and where the last epoch starts.
fn firsts(items: &[Item], filter: usize) -> (Vec<usize>, usize) {
    let (mut firsts, mut epoch, mut start) = (Vec::new(), HashSet::new(), 0);
    for (place, item) in items.iter().enumerate() {
        if epoch.contains(&item.page) {
            continue;
        }
        if epoch.len() == filter {
            epoch.clear();
            start = place;
        }
        epoch.insert(item.page);
        firsts.push(place);
    }
    (firsts, start)
}

/// The items kept if a full filter gave up one page instead of all.
fn cache_misses(items: &[Item], filter: usize) -> Vec<Item> {
    let mut filled: VecDeque<u64> = VecDeque::new();
    let mut missed = Vec::new();
    for item in items {
        if filled.contains(&item.page) {
            continue;
        }
        if filled.len() == filter {
            filled.pop_front();
        }
        filled.push_back(item.page);
        missed.push(*item);
    }
    missed
}
