//! LRU over a row of items. Nothing here knows of files, so the row may be
//! longer than any file: a whole recording.

use crate::lru::{Lru, Touch};
use std::hash::BuildHasher;
use types::event::event;
use types::{Frame, Item, NUMBERS_PER_EVENT, Summary};

/// What LRU did with a row of items, and the frames it left, most recently
/// used first.
#[derive(Clone, Debug, PartialEq, Eq)]
pub struct Run {
    pub events: Vec<u64>,
    pub frames: Vec<Frame>,
    pub summary: Summary,
}

/// Runs a cache of `size` pages, not 0, over the items. It starts with these
/// frames, whose pages are distinct and no more than it has room for.
pub fn run(items: impl IntoIterator<Item = Item>, size: usize, start: &[Frame]) -> Run {
    let mut list: Lru = Lru::start(size, start);
    let mut events = Vec::new();
    let summary = step_over(&mut list, items, |event| events.extend_from_slice(&event));
    Run {
        events,
        frames: list.frames().collect(),
        summary,
    }
}

/// Moves the list over all items and tells of each fetch.
pub(crate) fn step_over<S: BuildHasher + Default>(
    list: &mut Lru<S>,
    items: impl IntoIterator<Item = Item>,
    mut fetched: impl FnMut([u64; NUMBERS_PER_EVENT]),
) -> Summary {
    let (mut count, mut fetches, mut evictions) = (0, 0, 0);
    for item in items {
        count += 1;
        if let Touch::Fetch { evicted } = list.touch(item.page, item.written) {
            fetched(event(item.time, item.page, evicted));
            fetches += 1;
            evictions += u64::from(evicted.is_some());
        }
    }
    Summary {
        items: count,
        fetches,
        evictions,
        resident: list.len() as u64,
        permillion: (fetches * 1_000_000).checked_div(count).unwrap_or(0),
    }
}
