//! Each call goes through and its arguments arrive in their places.

use bindings::{Frame, Refusal, check, join, reduce, replay};
use types::Item;
use types::layout::{file_bytes, whole};

fn file() -> Vec<u8> {
    let pages = [1, 1, 1, 2, 1, 3, 3, 4, 3, 3, 1, 1];
    let items: Vec<_> = pages
        .iter()
        .zip(1..)
        .map(|(&page, n)| Item::read(page, 10 * n))
        .collect();
    whole(&items)
}

#[test]
fn check_answers_the_header() {
    let header = check(&file()).expect("taken");
    assert_eq!((header.kind, header.references, header.items), (0, 12, 12));
    assert_eq!(check(&[]), Err(Refusal::new(1)));
}

#[test]
fn reduce_takes_mode_before_filter() {
    let mut out = vec![0; file().len()];
    let header = reduce(&file(), 1, 2, &mut out).expect("taken");
    assert_eq!((header.kind, header.filter, header.items), (1, 2, 10));
    assert_eq!(check(&out[..file_bytes(10)]), Ok(header));
}

#[test]
fn reduce_takes_and_leaves_writes() {
    let items = [Item::read(7, 1), Item::write(7, 2), Item::read(7, 3)];
    let mut out = vec![0; whole(&items).len()];
    let header = reduce(&whole(&items), 2, 1, &mut out).expect("taken");
    assert_eq!(header.items, 2);
    // The tags of the two items kept.
    assert_eq!((out[23], out[23 + 19]), (5, 6));
}

#[test]
fn join_takes_the_first_file_first() {
    let (empty, mut out) = (whole(&[]), vec![0; file().len()]);
    let answer = join(&empty, &file()[..30], &mut out);
    assert_eq!(answer, Err(Refusal::new(3).in_second()));
    assert!(join(&file(), &empty, &mut out).is_ok());
    assert_eq!(out, file());
}

#[test]
fn replay_fills_cache_and_events() {
    let (mut cache, mut events) = ([Frame::written(0); 3], [0; 48]);
    let summary = replay(&file(), 2, &mut cache, 0, &mut events).expect("taken");
    assert_eq!((summary.fetches, summary.evictions), (5, 3));
    let left = [Frame::clean(1), Frame::clean(3), Frame::written(0)];
    assert_eq!(cache, left);
    assert_eq!(events[..4], [10, 1, 0, 0]);
    assert_eq!(events[8..12], [60, 3, 2, 1]);
    let answer = replay(&file(), 2, &mut cache, 9, &mut events);
    assert_eq!(answer, Err((Refusal::new(10), 9)));
    assert_eq!(cache, left);
}

/// Page and mark of each frame arrive and come back in their places.
#[test]
fn replay_takes_and_leaves_marks() {
    let file = whole(&[Item::read(5, 1), Item::write(6, 2), Item::read(8, 3)]);
    let start = [Frame::written(5), Frame::clean(6), Frame::written(7)];
    let (mut cache, mut events) = (start, [0; 12]);
    let summary = replay(&file, 3, &mut cache, 3, &mut events).expect("taken");
    assert_eq!((summary.fetches, summary.resident), (1, 3));
    assert_eq!(events[..4], [3, 8, 7, 2]);
    let left = [Frame::clean(8), Frame::written(6), Frame::written(5)];
    assert_eq!(cache, left);
}

/// The first page and the last that 64 bits can name arrive in items and in a
/// start, and come back in events and frames; what says that nothing was evicted
/// is the fourth number.
#[test]
fn every_number_of_64_bits_is_a_page() {
    let file = whole(&[Item::write(u64::MAX, 1), Item::read(0, 2), Item::read(8, 3)]);
    let (mut cache, mut events) = ([Frame::clean(9); 2], [7; 12]);
    let summary = replay(&file, 2, &mut cache, 0, &mut events).expect("taken");
    assert_eq!((summary.fetches, summary.evictions), (3, 1));
    assert_eq!(events[..4], [1, u64::MAX, 0, 0]);
    assert_eq!(events[4..], [2, 0, 0, 0, 3, 8, u64::MAX, 2]);
    let mut cache = [Frame::clean(u64::MAX), Frame::written(0)];
    let last = whole(&[Item::read(8, 3)]);
    let summary = replay(&last, 2, &mut cache, 2, &mut events).expect("taken");
    assert_eq!((summary.fetches, summary.evictions), (1, 1));
    assert_eq!(events[..4], [3, 8, 0, 2]);
    assert_eq!(cache, [8, u64::MAX].map(Frame::clean));
}
