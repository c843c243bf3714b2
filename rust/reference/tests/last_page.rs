//! Pages 0 and 2^64 - 1, the first and the last that 64 bits can name, are
//! pages like the others: in items, in a start, fetched and evicted. What says
//! that nothing was evicted is the fourth number of an event and no page.

use reference::{Frame, Summary, check, join, reduce, replay};
use types::Item;
use types::event::transfers;
use types::layout::{file_bytes, whole};

const FIRST: u64 = 0;
const LAST: u64 = u64::MAX;
const MODES: [u64; 2] = [1, 2];

/// These pages at times 10, 20 and so on; every third is a write.
fn trace(pages: &[u64]) -> Vec<Item> {
    let item = |(page, number): (&u64, u64)| Item {
        page: *page,
        time: 10 * number,
        written: number % 3 == 0,
    };
    pages.iter().zip(1..).map(item).collect()
}

/// Replays a file: the events, the summary and the frames left.
fn replayed(file: &[u8], size: u64, start: &[Frame]) -> (Vec<[u64; 4]>, Summary, Vec<Frame>) {
    let mut cache = start.to_vec();
    cache.resize(size as usize, Frame::written(99));
    let mut events = vec![7; 4 * (file.len() - 23) / 19];
    let summary = replay(file, size, &mut cache, start.len(), &mut events).expect("taken");
    cache.truncate(summary.resident as usize);
    let events = events.as_chunks().0[..summary.fetches as usize].to_vec();
    (events, summary, cache)
}

fn reduced(items: &[Item], mode: u64, filter: u64) -> Vec<u8> {
    let file = whole(items);
    let mut out = vec![0; file.len()];
    let header = reduce(&file, mode, filter, &mut out).expect("taken");
    out.truncate(file_bytes(header.items as usize));
    assert_eq!(check(&out), Ok(header));
    out
}

#[test]
fn page_0_evicted_is_told_from_nothing_evicted() {
    let (events, summary, left) = replayed(&whole(&trace(&[FIRST, 5, FIRST])), 1, &[]);
    let expected = [[10, FIRST, 0, 0], [20, 5, FIRST, 1], [30, FIRST, 5, 1]];
    assert_eq!(events, expected);
    assert_eq!((summary.fetches, summary.evictions), (3, 2));
    assert_eq!(left, [Frame::written(FIRST)]);
}

#[test]
fn the_last_page_is_fetched_hit_and_evicted() {
    let (events, summary, left) = replayed(&whole(&trace(&[LAST, 5, LAST, 6, 5, LAST])), 2, &[]);
    let expected = [
        [10, LAST, 0, 0],
        [20, 5, 0, 0],
        [40, 6, 5, 1],
        [50, 5, LAST, 2],
        [60, LAST, 6, 1],
    ];
    assert_eq!(events, expected);
    assert_eq!((summary.fetches, summary.evictions), (5, 3));
    assert_eq!(left, [Frame::written(LAST), Frame::clean(5)]);
    assert_eq!(transfers(&events.concat()), 6);
}

/// The two take each other's place: all four numbers of an event are theirs.
#[test]
fn the_first_and_the_last_page_by_turns() {
    let items = trace(&[LAST, FIRST, LAST, FIRST, FIRST, LAST]);
    let (events, summary, _) = replayed(&whole(&items), 1, &[]);
    let expected = [
        [10, LAST, 0, 0],
        [20, FIRST, LAST, 1],
        [30, LAST, FIRST, 1],
        [40, FIRST, LAST, 2],
        [60, LAST, FIRST, 1],
    ];
    assert_eq!(events, expected);
    assert_eq!((summary.fetches, summary.evictions), (5, 4));
}

#[test]
fn a_start_can_have_both() {
    let start = [Frame::clean(LAST), Frame::written(FIRST)];
    let (events, _, left) = replayed(&whole(&trace(&[LAST])), 2, &start);
    assert_eq!((events, left), (vec![], start.to_vec()));
    let (events, summary, left) = replayed(&whole(&trace(&[6, 7])), 2, &start);
    assert_eq!(events, [[10, 6, FIRST, 2], [20, 7, LAST, 1]]);
    assert_eq!((summary.evictions, summary.resident), (2, 2));
    assert_eq!(left, [7, 6].map(Frame::clean));
    // With room to spare nothing goes.
    let (events, _, _) = replayed(&whole(&trace(&[6])), 3, &start);
    assert_eq!(events, [[10, 6, 0, 0]]);
}

/// A pool that numbers its pages from the top, with page 0 among them.
fn from_the_top() -> Vec<Item> {
    let pages = [0, 0, 1, 0, 9, 0, 0, 2, 2, 9, 2, 1, 0, 9, 9];
    let page = |down: &u64| if *down == 9 { FIRST } else { LAST - down };
    trace(&pages.iter().map(page).collect::<Vec<u64>>())
}

/// Demand 3: wherever it is cut and however its parts are reduced, the join
/// replays as the recording does, from any start.
#[test]
fn reductions_and_joins_replay_alike() {
    let items = from_the_top();
    let starts = [vec![], vec![Frame::written(LAST), Frame::clean(FIRST)]];
    for cut in 0..=items.len() {
        for (mode, other) in MODES.iter().flat_map(|mode| MODES.map(|two| (*mode, two))) {
            let (first, second) = items.split_at(cut);
            let (first, second) = (reduced(first, mode, 2), reduced(second, other, 1));
            let mut file = vec![0; first.len() + second.len() - 23];
            join(&first, &second, &mut file).expect("taken");
            for (size, start) in [(2, &starts[0]), (2, &starts[1]), (3, &starts[1])] {
                let (events, _, left) = replayed(&whole(&items), size, start);
                let (joined, _, joined_left) = replayed(&file, size, start);
                assert_eq!((joined, joined_left), (events, left), "cut {cut}");
            }
        }
    }
}
