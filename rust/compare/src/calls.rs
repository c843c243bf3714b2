//! Random calls: good files and damaged ones, sizes in range and outside,
//! buffers of exactly enough, one less and more, all filled with noise.

use crate::files::{Good, file, filter, good, of_kind};
use crate::{Case, Random, damage, marks, traces};
use std::collections::HashSet;
use types::layout::{HEADER_BYTES, file_bytes};
use types::limits::{LARGEST_CACHE, LARGEST_FILTER};
use types::{Frame, NUMBERS_PER_EVENT};

pub fn any(random: &mut Random) -> Case {
    match random.below(8) {
        0 => check(random),
        1..4 => reduce(random),
        4 | 5 => join(random),
        _ => replay(random),
    }
}

pub fn check(random: &mut Random) -> Case {
    let file = good(random);
    Case::Check {
        file: perhaps_damaged(random, 2, file.bytes),
    }
}

pub fn reduce(random: &mut Random) -> Case {
    let file = match random.once_in(10) {
        true => good(random),
        false => of_kind(random, 0),
    };
    let bytes = perhaps_damaged(random, 8, file.bytes);
    let room = room(random, bytes.len());
    Case::Reduce {
        mode: mode(random),
        filter: filter_given(random),
        out: noise_bytes(random, room),
        file: bytes,
    }
}

fn mode(random: &mut Random) -> u64 {
    match random.once_in(15) {
        true => random.pick(&[0, 3, 257, (1 << 32) + 1, u64::MAX]),
        false => 1 + random.below(2),
    }
}

fn filter_given(random: &mut Random) -> u64 {
    let outside = [
        0,
        LARGEST_FILTER + 1,
        (1 << 16) + 1,
        (1 << 32) + 1,
        u64::MAX,
    ];
    match random.once_in(15) {
        true => random.pick(&outside),
        false => filter(random),
    }
}

pub fn join(random: &mut Random) -> Case {
    let (first, second) = match random.once_in(4) {
        true => (good(random).bytes, good(random).bytes),
        false => cut(random),
    };
    let first = perhaps_damaged(random, 8, first);
    let second = perhaps_damaged(random, 8, second);
    let enough = (first.len() + second.len()).saturating_sub(HEADER_BYTES);
    let room = room(random, enough);
    Case::Join {
        first,
        second,
        out: noise_bytes(random, room),
    }
}

/// Two files of one trace, so that the second follows the first.
fn cut(random: &mut Random) -> (Vec<u8>, Vec<u8>) {
    let pages = traces::pages(random);
    let pool = traces::pool(random, pages);
    let count = traces::length(random);
    let items = traces::items(random, &pool, count);
    let at = random.index(count + 1);
    let kinds = (random.below(3), random.below(3));
    (
        file(random, kinds.0, &items[..at]),
        file(random, kinds.1, &items[at..]),
    )
}

pub fn replay(random: &mut Random) -> Case {
    let file = good(random);
    let size = size(random, &file);
    let (cache, resident) = cache(random, &file, size);
    let items = file.header.items as usize;
    let room = room(random, NUMBERS_PER_EVENT * items);
    Case::Replay {
        size,
        cache,
        resident,
        events: (0..room).map(|_| random.bits()).collect(),
        file: perhaps_damaged(random, 12, file.bytes),
    }
}

/// Mostly at least the file's filter size, and often exactly that.
fn size(random: &mut Random, file: &Good) -> u64 {
    let least = file.header.filter.max(1);
    let outside = [0, LARGEST_CACHE + 1, (1 << 16) + 2, (1 << 32) + 2, u64::MAX];
    match random.below(20) {
        0 => random.pick(&outside),
        1 => least - 1,
        2 => LARGEST_CACHE,
        3..8 => least,
        8..10 => least + random.below(LARGEST_CACHE - least + 1),
        _ => (least + random.below(12)).min(LARGEST_CACHE),
    }
}

/// A starting cache in a buffer whose other places hold pages of the trace
/// too, and any marks: whoever reads beyond the resident ones is found out.
fn cache(random: &mut Random, file: &Good, size: u64) -> (Vec<Frame>, usize) {
    let size = size.min(LARGEST_CACHE + 2) as usize;
    let places = match random.below(12) {
        0 => size.saturating_sub(1),
        1..5 => size,
        _ => size + random.index(5),
    };
    let mut pages: Vec<u64> = (0..places).map(|_| random.pick(&file.pool)).collect();
    let most = size.min(places);
    let resident = match random.below(4) {
        0 => 0,
        1 => most,
        _ => random.index(most + 1),
    };
    fill_distinct(random, &file.pool, &mut pages[..resident]);
    let resident = spoil(random, &mut pages, resident, size);
    (marks::frames(random, &pages), resident)
}

/// Distinct pages, of the trace as far as it has that many. The last page and
/// the first come before all others that are strange to it: any page can start.
fn fill_distinct(random: &mut Random, pool: &[u64], start: &mut [u64]) {
    let known: HashSet<u64> = pool.iter().copied().collect();
    let strangers = [u64::MAX, 0].into_iter().chain(1000..);
    let mut strangers = strangers.filter(|page| !known.contains(page));
    let mut pages: Vec<u64> = pool.to_vec();
    for place in start.iter_mut() {
        let from_trace = !pages.is_empty() && !random.once_in(4);
        *place = match from_trace {
            true => {
                let index = random.index(pages.len());
                pages.swap_remove(index)
            }
            false => strangers
                .next()
                .expect("there are more pages than a pool has"),
        };
    }
}

/// Now and then a start that is refused.
fn spoil(random: &mut Random, cache: &mut [u64], resident: usize, size: usize) -> usize {
    match random.below(30) {
        0 => size + 1,
        1 => random.pick(&[usize::MAX, 1 << 32, 5000]),
        // Often, so that the frames of such a page have the same mark and two.
        2..6 if resident > 1 => {
            let one = random.index(resident);
            let two = (one + 1 + random.index(resident - 1)) % resident;
            // And so that it is often the first page of all or the last.
            let ends = [0, u64::MAX, cache[two], cache[two]];
            cache[two] = random.pick(&ends);
            cache[one] = cache[two];
            resident
        }
        _ => resident,
    }
}

fn perhaps_damaged(random: &mut Random, once_in: u64, file: Vec<u8>) -> Vec<u8> {
    match random.once_in(once_in) {
        true => damage::damaged(random, &file),
        false => file,
    }
}

/// Exactly enough, one less, more, or none.
fn room(random: &mut Random, enough: usize) -> usize {
    match random.below(20) {
        0 => 0,
        1 | 2 => enough.saturating_sub(1),
        3..10 => enough,
        10 => enough + file_bytes(1000),
        _ => enough + random.index(60),
    }
}

pub fn noise_bytes(random: &mut Random, count: usize) -> Vec<u8> {
    (0..count).map(|_| random.bits() as u8).collect()
}
