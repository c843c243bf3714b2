//! Every trace of up to seven items over up to four pages, in both modes with
//! every filter size that matters, and with every cache size that does; and
//! every trace of up to six over up to three pages with all its writes. The
//! first page of all and the last are among them.

use bindings::Proved;
use compare::report::say_seen;
use compare::{Case, Judge, Random};
use reference::Reference;
use types::layout::{HEADER_BYTES, ITEM_BYTES, whole};
use types::{Frame, Item, NUMBERS_PER_EVENT};

const LONGEST: u32 = 7;
const PAGES: u64 = 4;

/// The pages that the digits of a number name.
const NAMED: [u64; PAGES as usize] = [0, u64::MAX, 1, u64::MAX - 1];

const LONGEST_WRITTEN: u32 = 6;
const PAGES_WRITTEN: u64 = 3;

/// The trace whose pages are the digits of a number to this base, and whose
/// writes are the bits of another.
fn trace(pages: u64, number: u64, writes: u64, length: u32) -> Vec<u8> {
    let item = |place: u32| Item {
        page: NAMED[(number / pages.pow(place) % pages) as usize],
        // Pairs of equal times.
        time: u64::from(place / 2),
        written: writes >> place & 1 == 1,
    };
    whole(&(0..length).map(item).collect::<Vec<_>>())
}

/// A file in both reductions and in a replay, whose start has these marks.
fn in_all_sizes(judge: &mut Judge, file: &[u8], pages: u64, resident: u64, marks: u64) {
    let items = (file.len() - HEADER_BYTES) / ITEM_BYTES;
    let frame = |(page, place): (u64, u64)| Frame {
        page,
        written: marks >> place & 1 == 1,
    };
    let start = [NAMED[3], NAMED[1], NAMED[0], NAMED[2], 9];
    let cache: Vec<Frame> = start.into_iter().zip(0..).map(frame).collect();
    for size in 1..=pages {
        for mode in [1, 2] {
            judge.insist(&Case::Reduce {
                file: file.to_vec(),
                mode,
                filter: size,
                out: vec![0xC3; file.len() + 1],
            });
        }
        judge.insist(&Case::Replay {
            file: file.to_vec(),
            size,
            cache: cache.clone(),
            resident: (resident % (size + 1)) as usize,
            events: vec![4; NUMBERS_PER_EVENT * items + 1],
        });
    }
}

#[test]
fn every_small_trace() {
    let mut judge = Judge::new(&Proved, &Reference);
    for length in 0..=LONGEST {
        for number in 0..PAGES.pow(length) {
            // Writes that have little to do with the pages.
            let writes = number * 37 / 11;
            let file = trace(PAGES, number, writes, length);
            in_all_sizes(&mut judge, &file, PAGES, number, number / 3);
        }
    }
    say_seen("small traces", Random::seed(), &judge.seen);
    let traces: u64 = (0..=LONGEST).map(|length| PAGES.pow(length)).sum();
    assert_eq!(judge.seen.cases, traces * PAGES * 3);
    assert_eq!(judge.seen.taken, judge.seen.cases);
    let evicted = judge.seen.evicted;
    assert!(evicted.page_0 > traces && evicted.last_page > traces);
}

#[test]
fn every_small_trace_with_every_write() {
    let mut judge = Judge::new(&Proved, &Reference);
    for length in 0..=LONGEST_WRITTEN {
        for number in 0..PAGES_WRITTEN.pow(length) {
            for writes in 0..1 << length {
                let file = trace(PAGES_WRITTEN, number, writes, length);
                let marks = number + writes / 2;
                in_all_sizes(&mut judge, &file, PAGES_WRITTEN, number + writes, marks);
            }
        }
    }
    say_seen("small traces with writes", Random::seed(), &judge.seen);
    let written = 2 * PAGES_WRITTEN;
    let traces: u64 = (0..=LONGEST_WRITTEN)
        .map(|length| written.pow(length))
        .sum();
    assert_eq!(judge.seen.cases, traces * PAGES_WRITTEN * 3);
    assert_eq!(judge.seen.taken, judge.seen.cases);
    let evicted = judge.seen.evicted;
    assert!(evicted.page_0 > traces && evicted.last_page > traces);
}
