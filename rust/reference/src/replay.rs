//! The LRU replay.

use crate::check::{check, items};
use crate::lru::Lru;
use crate::page_map::{PageSet, PageState};
use crate::run::step_over;
use std::hash::BuildHasher;
use types::limits::LARGEST_CACHE;
use types::{Frame, NUMBERS_PER_EVENT, Refusal, Summary};

/// Replays a trace file with a cache of `size` pages that starts as the first
/// `resident` frames of `cache`.
pub fn replay(
    file: &[u8],
    size: u64,
    cache: &mut [Frame],
    resident: usize,
    events: &mut [u64],
) -> Result<Summary, (Refusal, u64)> {
    replay_with::<PageState>(file, size, cache, resident, events)
}

/// The same with another hash of pages, in the list and for the start.
pub fn replay_with<S: BuildHasher + Default>(
    file: &[u8],
    size: u64,
    cache: &mut [Frame],
    resident: usize,
    events: &mut [u64],
) -> Result<Summary, (Refusal, u64)> {
    admit::<S>(file, size, cache, resident, events.len())
        .map_err(|refusal| (refusal, resident as u64))?;
    let mut list = Lru::<S>::start(size as usize, &cache[..resident]);
    let mut places = events.chunks_exact_mut(NUMBERS_PER_EVENT);
    let summary = step_over(&mut list, items(file), |event| {
        let place = places.next().expect("room for each fetch");
        place.copy_from_slice(&event);
    });
    for (place, frame) in cache.iter_mut().zip(list.frames()) {
        *place = frame;
    }
    Ok(summary)
}

/// The refusals of a replay in their order.
fn admit<S: BuildHasher + Default>(
    file: &[u8],
    size: u64,
    cache: &[Frame],
    resident: usize,
    room: usize,
) -> Result<(), Refusal> {
    let header = check(file)?;
    if !(1..=LARGEST_CACHE).contains(&size) {
        return Err(Refusal::new(7));
    }
    if size < header.filter {
        return Err(Refusal::new(9));
    }
    if !can_start::<S>(size as usize, cache, resident) {
        return Err(Refusal::new(10));
    }
    if room < NUMBERS_PER_EVENT * header.items as usize {
        return Err(Refusal::new(11));
    }
    Ok(())
}

/// Whether the first frames of the lent buffer can be a starting cache. Any
/// pages can that are distinct, with any marks.
fn can_start<S: BuildHasher + Default>(size: usize, cache: &[Frame], resident: usize) -> bool {
    if resident > size || cache.len() < size {
        return false;
    }
    let mut seen = PageSet::<S>::default();
    cache[..resident]
        .iter()
        .all(|frame| seen.insert(frame.page))
}
