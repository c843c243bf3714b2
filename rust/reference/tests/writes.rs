//! Writes: what a reduction does with those it drops, and what a replay tells
//! of the pages that were written.

use reference::{Frame, join, reduce, replay, run};
use types::Item;
use types::event::transfers;
use types::layout::{file_bytes, whole};

/// The third number where nothing was evicted, which the fourth says.
const NONE: u64 = 0;
const DEMAND: u64 = 2;
const FASTSLIM: u64 = 1;
const MODES: [u64; 2] = [FASTSLIM, DEMAND];

/// Pages at times 10, 20 and so on; `w` after a page says that it is written.
fn trace(words: &str) -> Vec<Item> {
    let item = |(word, time): (&str, u64)| Item {
        page: word.trim_end_matches('w').parse().expect("a page"),
        time,
        written: word.ends_with('w'),
    };
    let times = (10..).step_by(10);
    words.split(' ').zip(times).map(item).collect()
}

fn reduced(items: &[Item], mode: u64, filter: u64) -> Vec<u8> {
    let file = whole(items);
    let mut out = vec![0; file.len()];
    let header = reduce(&file, mode, filter, &mut out).expect("taken");
    out.truncate(file_bytes(header.items as usize));
    out
}

/// The times of the kept items, each with `w` if it is a write.
fn kept(words: &str, mode: u64, filter: u64) -> String {
    let file = reduced(&trace(words), mode, filter);
    let word = |item: Item| format!("{}{}", item.time, if item.written { "w" } else { "" });
    let words: Vec<String> = reference::items(&file).map(word).collect();
    words.join(" ")
}

fn joined(first: &[u8], second: &[u8]) -> Vec<u8> {
    let mut out = vec![0; first.len() + second.len() - 23];
    join(first, second, &mut out).expect("taken");
    out
}

/// Replays a file: the events and the frames left.
fn replayed(file: &[u8], size: u64, start: &[Frame]) -> (Vec<[u64; 4]>, Vec<Frame>) {
    let mut cache = start.to_vec();
    cache.resize(size as usize, Frame::written(99));
    let mut events = vec![0; 4 * (file.len() - 23) / 19];
    let summary = replay(file, size, &mut cache, start.len(), &mut events).expect("taken");
    cache.truncate(summary.resident as usize);
    let events = events.as_chunks().0[..summary.fetches as usize].to_vec();
    (events, cache)
}

#[test]
fn a_dropped_write_marks_the_last() {
    for mode in MODES {
        assert_eq!(kept("7 7w 7", mode, 1), "10 30w");
        assert_eq!(kept("7 7w 7 7 7", mode, 1), "10 50w");
        assert_eq!(kept("7 7 7 7w 7w", mode, 1), "10 50w");
        assert_eq!(kept("7 7 7", mode, 1), "10 30");
    }
}

#[test]
fn a_kept_write_marks_nothing_else() {
    for mode in MODES {
        assert_eq!(kept("7w 7 7", mode, 1), "10w 30");
        assert_eq!(kept("7w 7", mode, 1), "10w 20");
        assert_eq!(kept("7 7 7w", mode, 1), "10 30w");
        assert_eq!(kept("7w 7w 7w", mode, 1), "10w 30w");
    }
    // The last of a phase is kept too, and its write with it.
    assert_eq!(kept("1 1w 2 1 1", FASTSLIM, 2), "10 20w 30 50");
    assert_eq!(kept("1 1w 2 1 1", DEMAND, 2), "10 30 50w");
}

/// The mark waits for the last item of the epoch: what is kept between, as
/// the last of its phase, stays what it was.
#[test]
fn a_write_dropped_in_one_phase_is_settled_in_a_later_one() {
    assert_eq!(kept("1 1w 1 2 1", FASTSLIM, 2), "10 30 40 50w");
    assert_eq!(kept("1 1w 1 2 1 1", FASTSLIM, 2), "10 30 40 60w");
    assert_eq!(kept("1 1w 1 2 3 1", FASTSLIM, 3), "10 30 40 50 60w");
    // Where the page comes no more, the last of that phase is the last.
    assert_eq!(kept("1 1w 1 2 2", FASTSLIM, 2), "10 30w 40 50");
    assert_eq!(kept("1 1w 1 2 1", DEMAND, 2), "10 40 50w");
}

#[test]
fn a_mark_stays_in_its_epoch_and_with_its_page() {
    for mode in MODES {
        assert_eq!(kept("1 1w 1 2 2 2 1 1 1", mode, 1), "10 30w 40 60 70 90");
        assert_eq!(kept("1 1w 1 2 3 1 1 1", mode, 2), "10 30w 40 50 60 80");
    }
    assert_eq!(kept("1 2 1 2w 1 2", DEMAND, 2), "10 20 50 60w");
    assert_eq!(kept("1 2 1 2w 1 2", FASTSLIM, 2), "10 20 50 60w");
}

/// All items kept: nothing is marked, and writes stay writes.
#[test]
fn equal_times_keep_file_order_and_writes() {
    let items = [Item::read(1, 5), Item::write(2, 5), Item::write(1, 5)];
    for mode in MODES {
        assert_eq!(reduced(&items, mode, 2)[23..], whole(&items)[23..]);
    }
}

#[test]
fn a_write_that_is_the_fetch() {
    let (events, left) = replayed(&whole(&trace("1w 2 3 4")), 2, &[]);
    let expected = [
        [10, 1, NONE, 0],
        [20, 2, NONE, 0],
        [30, 3, 1, 2],
        [40, 4, 2, 1],
    ];
    assert_eq!(events, expected);
    assert_eq!(left, [4, 3].map(Frame::clean));
    assert_eq!(transfers(&events.concat()), 5);
}

#[test]
fn a_hit_by_a_write_marks_and_by_a_read_does_not_clear() {
    let (events, left) = replayed(&whole(&trace("1 1w 1 2")), 1, &[]);
    assert_eq!(events, [[10, 1, NONE, 0], [40, 2, 1, 2]]);
    assert_eq!(left, [Frame::clean(2)]);
    let (_, left) = replayed(&whole(&trace("1 2w 1w 2 1")), 2, &[]);
    assert_eq!(left, [1, 2].map(Frame::written));
}

/// A page that comes back is as clean as its fetch.
#[test]
fn a_page_evicted_clean_and_later_written() {
    let (events, left) = replayed(&whole(&trace("1 2 1w 2 1 3")), 1, &[]);
    let evicted: Vec<(u64, u64)> = events.iter().map(|event| (event[2], event[3])).collect();
    assert_eq!(evicted, [(NONE, 0), (1, 1), (2, 1), (1, 2), (2, 1), (1, 1)]);
    assert_eq!(left, [Frame::clean(3)]);
}

#[test]
fn starting_marks_survive() {
    let start = [Frame::written(5), Frame::clean(6), Frame::written(7)];
    // Page 5 is read, 6 written; 7 goes as what it was, then 5.
    let (events, left) = replayed(&whole(&trace("5 6w 8 9")), 3, &start);
    assert_eq!(events, [[30, 8, 7, 2], [40, 9, 5, 2]]);
    let expected = [Frame::clean(9), Frame::clean(8), Frame::written(6)];
    assert_eq!(left, expected);
    let (events, left) = replayed(&whole(&[]), 3, &start);
    assert_eq!((events, left), (vec![], start.to_vec()));
}

/// The items alone do what their file does, marks and all.
#[test]
fn without_a_file() {
    let (items, start) = (trace("1w 2 3 1 4w 2"), [Frame::written(3), Frame::clean(9)]);
    let (events, left) = replayed(&whole(&items), 2, &start);
    let of_items = run(items, 2, &start);
    assert_eq!((of_items.events, of_items.frames), (events.concat(), left));
}

/// The write is in one file and the eviction in the next: wherever the trace
/// is cut and however its parts are reduced, the join tells it.
#[test]
fn a_cut_between_a_write_and_its_eviction() {
    let items = trace("1 1w 1 2 2 1 2w 2 3 3 3w 4 1 1");
    let starts = [vec![], vec![Frame::written(4), Frame::clean(1)]];
    for cut in 0..=items.len() {
        for (mode, other) in [(1, 1), (1, 2), (2, 1), (2, 2)] {
            let (first, second) = items.split_at(cut);
            let file = joined(&reduced(first, mode, 2), &reduced(second, other, 2));
            for (size, start) in [(2, &starts[0]), (2, &starts[1]), (3, &starts[1])] {
                let expected = replayed(&whole(&items), size, start);
                assert_eq!(replayed(&file, size, start), expected, "cut {cut}");
            }
        }
    }
    let (events, _) = replayed(&whole(&items), 2, &[]);
    let written: Vec<u64> = events.iter().filter(|e| e[3] == 2).map(|e| e[2]).collect();
    assert_eq!(written, [1, 2, 3]);
}

/// Trace T of the paper with a write at 20, which both reductions drop, and
/// one at 70, which FastSlim-Demand drops and FastSlim keeps.
#[test]
fn t_with_two_writes() {
    let t = "1 1w 1 2 1 3 3w 4 3 3 1 1";
    assert_eq!(kept(t, DEMAND, 2), "10 40 50w 60 80 100w 110 120");
    assert_eq!(kept(t, FASTSLIM, 2), "10 30 40 50w 60 70w 80 100 110 120");
    let expected = [
        [10, 1, NONE, 0],
        [40, 2, NONE, 0],
        [60, 3, 2, 1],
        [80, 4, 1, 2],
        [110, 1, 4, 1],
    ];
    let left = [Frame::clean(1), Frame::written(3)];
    let whole = whole(&trace(t));
    for file in [whole, reduced(&trace(t), 1, 2), reduced(&trace(t), 2, 2)] {
        assert_eq!(replayed(&file, 2, &[]), (expected.to_vec(), left.to_vec()));
    }
}
