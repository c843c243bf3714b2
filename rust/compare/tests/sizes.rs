//! Modes, filter sizes, cache sizes, starting caches and rooms at all their
//! edges.

use bindings::Proved;
use compare::report::say_seen;
use compare::{Case, Judge, Random};
use reference::Reference;
use types::layout::{encode, whole};
use types::{Frame, Header, Item};

fn items(pages: &[u64]) -> Vec<Item> {
    pages
        .iter()
        .zip(0..)
        .map(|(&page, time)| Item {
            page,
            time,
            written: time % 3 == 1,
        })
        .collect()
}

fn reduced(pages: &[u64], filter: u64) -> Vec<u8> {
    let header = Header {
        kind: 1,
        filter,
        references: pages.len() as u64,
        items: pages.len() as u64,
    };
    encode(&header, &items(pages))
}

/// A number and its neighbours, and what it turns into if cut to fewer bits.
fn around(edges: &[u64]) -> Vec<u64> {
    let near = |edge: &u64| [edge.wrapping_sub(1), *edge, edge.wrapping_add(1)];
    edges.iter().flat_map(near).collect()
}

#[test]
fn modes_and_filter_sizes() {
    let mut judge = Judge::new(&Proved, &Reference);
    let edges = around(&[1, 3, 1024, 1 << 8, 1 << 16, 1 << 32, u64::MAX]);
    let pages = [1, 2, 1, 3, 3, 2, 4, 4, 4, 1];
    for file in [whole(&items(&pages)), whole(&[]), reduced(&pages, 2)] {
        for mode in &edges {
            for filter in &edges {
                for room in around(&[1, 23, file.len() as u64]) {
                    judge.insist(&Case::Reduce {
                        file: file.clone(),
                        mode: *mode,
                        filter: *filter,
                        out: vec![0x5A; room as usize],
                    });
                }
            }
        }
    }
    say_seen("modes and filters", Random::seed(), &judge.seen);
    for number in [7, 8, 11] {
        assert!(judge.seen.refused[number] > 0, "refusal {number} not seen");
    }
    assert!(judge.seen.taken > 0);
}

#[test]
fn cache_sizes_and_residents() {
    let mut judge = Judge::new(&Proved, &Reference);
    let pages = [1, 2, 1, 3, 3, 2, 4, 4, 4, 1];
    let huge = [1 << 8, 1 << 16, 1 << 32, u64::MAX];
    let sizes = [&around(&[1, 3, 4096]), &around(&huge)[..]].concat();
    for file in [whole(&items(&pages)), whole(&[]), reduced(&pages, 3)] {
        for size in &sizes {
            for places in around(&[1, 3, 4096]) {
                for resident in around(&[1, 3, 4096, 1 << 32]) {
                    judge.insist(&Case::Replay {
                        file: file.clone(),
                        size: *size,
                        cache: (2..2 + places).map(Frame::written).collect(),
                        resident: resident as usize,
                        events: vec![6; 41],
                    });
                }
            }
        }
    }
    say_seen("cache sizes", Random::seed(), &judge.seen);
    for number in [7, 9, 10] {
        assert!(judge.seen.refused[number] > 0, "refusal {number} not seen");
    }
    assert!(judge.seen.taken > 0);
}

/// Every starting cache of up to four places over a few pages, the first of all
/// and the last among them, with every resident count and room, and marks that
/// change from one to the next. Room of three numbers for each item is not
/// enough.
#[test]
fn every_small_start() {
    let mut judge = Judge::new(&Proved, &Reference);
    let file = whole(&items(&[1, u64::MAX, 0, 1]));
    let pages = [1, 0, 3, u64::MAX];
    for number in 0..256 {
        let cache: Vec<Frame> = (0..4)
            .map(|digit| Frame {
                page: pages[number >> (2 * digit) & 3],
                written: (number * 7) >> digit & 1 == 1,
            })
            .collect();
        for size in 1..=5 {
            for resident in 0..=5 {
                for room in [0, 12, 15, 16, 17] {
                    judge.insist(&Case::Replay {
                        file: file.clone(),
                        size,
                        cache: cache.clone(),
                        resident,
                        events: vec![6; room],
                    });
                }
            }
        }
    }
    say_seen("small starts", Random::seed(), &judge.seen);
    assert_eq!(judge.seen.cases, 256 * 5 * 6 * 5);
    assert!(judge.seen.refused[10] > 0 && judge.seen.refused[11] > 0);
    judge.seen.insist_on_the_table();
    let evicted = judge.seen.evicted;
    assert!(evicted.nothing > 0 && evicted.page_0 > 0 && evicted.last_page > 0);
}
