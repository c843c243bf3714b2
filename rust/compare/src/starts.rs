//! What a replay starts with: a cache size and the frames resident.

use crate::{Random, marks};
use types::Frame;
use types::limits::LARGEST_CACHE;

/// A cache size and the frames it starts with, their pages distinct and no
/// more than it has room for.
#[derive(Clone, Debug)]
pub struct Start {
    pub size: u64,
    pub frames: Vec<Frame>,
}

impl Start {
    /// For files whose largest filter is this, over the pages of a pool.
    pub fn random(random: &mut Random, largest: u64, pool: &[u64]) -> Start {
        let size = cache_size(random, largest);
        let pages = pages(random, pool, size);
        let frames = marks::frames(random, &pages);
        Start { size, frames }
    }
}

/// At least the largest filter, and often exactly that.
fn cache_size(random: &mut Random, largest: u64) -> u64 {
    let least = largest.max(1);
    match random.below(4) {
        0 | 1 => least,
        2 => least + random.below(10),
        _ => least + random.below(LARGEST_CACHE - least + 1),
    }
}

/// Distinct pages, some of the trace and some strange to it, the first and the
/// last of all among these.
pub fn pages(random: &mut Random, pool: &[u64], size: u64) -> Vec<u64> {
    let mut pages: Vec<u64> = pool.to_vec();
    pages.extend([0, u64::MAX]);
    pages.extend((0..20).map(|_| random.bits()));
    pages.sort_unstable();
    pages.dedup();
    let count = random.index(pages.len().min(size as usize) + 1);
    (0..count)
        .map(|_| {
            let place = random.index(pages.len());
            pages.swap_remove(place)
        })
        .collect()
}
