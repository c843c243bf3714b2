//! Each refusal with its trace and item, the order among them, and the
//! buffers they leave alone.

use reference::{Frame, Header, Refusal, check, join, reduce, replay};
use types::Item;
use types::layout::{encode, whole};

fn items(count: u64) -> Vec<Item> {
    (0..count).map(|n| Item::read(n % 3, n)).collect()
}

fn file(kind: u64, filter: u64, references: u64, count: u64) -> Vec<u8> {
    let header = Header {
        kind,
        filter,
        references,
        items: count,
    };
    encode(&header, &items(count))
}

/// A copy of the file with one byte replaced.
fn with(file: &[u8], at: usize, byte: u8) -> Vec<u8> {
    let mut copy = file.to_vec();
    copy[at] = byte;
    copy
}

fn refused(number: u64) -> Result<Header, Refusal> {
    Err(Refusal::new(number))
}

#[test]
fn header_marks_are_refused_1() {
    let good = file(0, 0, 2, 2);
    for at in [0, 1, 2, 4, 5, 6, 9, 10, 11, 16, 17, 18] {
        assert_eq!(check(&with(&good, at, 0xAA)), refused(1), "byte {at}");
    }
    assert_eq!(check(&[]), refused(1));
}

#[test]
fn header_values_are_refused_2() {
    for (kind, filter, references, count) in [
        (0, 1, 2, 2),
        (0, 0, 3, 2),
        (0, 0, 1, 2),
        (1, 0, 2, 2),
        (1, 1025, 2, 2),
        (2, 0, 2, 2),
        (2, 1025, 2, 2),
        (2, 2, 1, 2),
        (1, 2, 5, 0),
        (3, 2, 2, 2),
        (255, 0, 2, 2),
    ] {
        let bytes = file(kind, filter, references, count);
        assert_eq!(check(&bytes), refused(2), "{kind} {filter} {references}");
    }
    let too_many = Header {
        kind: 0,
        filter: 0,
        references: 1_000_001,
        items: 1_000_001,
    };
    // The value is refused before the length is looked at.
    assert_eq!(check(&encode(&too_many, &[])), refused(2));
}

#[test]
fn good_headers_are_taken() {
    for (kind, filter, references, count) in [
        (0, 0, 0, 0),
        (0, 0, 4, 4),
        (1, 1, 4, 4),
        (1, 1024, 0xFFFF_FFFF, 1),
        (2, 1024, 5, 4),
        (2, 1, 0, 0),
    ] {
        assert!(check(&file(kind, filter, references, count)).is_ok());
    }
}

#[test]
fn lengths_are_refused_3() {
    let good = file(0, 0, 2, 2);
    assert_eq!(check(&good[..good.len() - 1]), refused(3));
    assert_eq!(check(&[&good[..], &[5]].concat()), refused(3));
    assert_eq!(check(&good[..23]), refused(3));
}

#[test]
fn items_are_refused_4_and_6_and_the_first_faulty_counts() {
    let good = file(0, 0, 4, 4);
    for at in 0..3 {
        let damaged = with(&good, 23 + 19 * 2 + at, 0xAA);
        assert_eq!(check(&damaged), Err(Refusal::of_item(4, 2)));
    }
    let mut falling = items(4);
    falling[3].time = 1;
    assert_eq!(check(&whole(&falling)), Err(Refusal::of_item(6, 3)));
    // Both faults in one item: the lower number.
    let both = with(&whole(&falling), 23 + 19 * 3, 7);
    assert_eq!(check(&both), Err(Refusal::of_item(4, 3)));
    // In an earlier item the higher number counts.
    let mut both = items(4);
    both[1].time = 9;
    let both = with(&whole(&both), 23 + 19 * 3, 7);
    assert_eq!(check(&both), Err(Refusal::of_item(6, 2)));
}

/// The last page that 64 bits can name is a page like the others: an item of it
/// is taken, and is held to the other rules.
#[test]
fn the_last_page_is_taken_and_held_to_the_other_rules() {
    let good = file(0, 0, 4, 4);
    for number in 0..4 {
        let mut last = items(4);
        last[number].page = u64::MAX;
        for written in [false, true] {
            last[number].written = written;
            assert_eq!(check(&whole(&last)), check(&good), "item {number}");
        }
        let wrong_tag = with(&whole(&last), 23 + 19 * number, 7);
        let refused = Err(Refusal::of_item(4, number as u64));
        assert_eq!(check(&wrong_tag), refused);
    }
    let of_it_alone: Vec<Item> = (0..4).map(|time| Item::write(u64::MAX, time)).collect();
    assert_eq!(check(&whole(&of_it_alone)), check(&good));
}

#[test]
fn a_time_that_falls_at_the_last_page_is_6_there() {
    for number in 1..4 {
        let mut falling = items(4);
        falling[number].page = u64::MAX;
        falling[number].time = number as u64 - 1;
        falling[number - 1].time = number as u64;
        let refused = Err(Refusal::of_item(6, number as u64));
        assert_eq!(check(&whole(&falling)), refused);
        // And after it, where it is the item before.
        let mut after = items(4);
        after[number - 1].page = u64::MAX;
        after[number - 1].time = 9;
        assert_eq!(check(&whole(&after)), refused);
    }
}

/// Tags 5 and 6 and no others, for each item by itself.
#[test]
fn two_tags_are_taken_and_the_others_refused_4() {
    let good = file(0, 0, 4, 4);
    for item in 0..4 {
        for tag in 0..=255 {
            let answer = check(&with(&good, 23 + 19 * item, tag));
            match tag {
                5 | 6 => assert_eq!(answer, check(&good), "tag {tag}"),
                _ => assert_eq!(answer, Err(Refusal::of_item(4, item as u64)), "tag {tag}"),
            }
        }
    }
    // A write is held to the other rules as well.
    let mut writes = items(4);
    writes.iter_mut().for_each(|item| item.written = true);
    assert_eq!(check(&whole(&writes)), check(&good));
    writes[3].time = 1;
    assert_eq!(check(&whole(&writes)), Err(Refusal::of_item(6, 3)));
    writes[3].page = u64::MAX;
    assert_eq!(check(&whole(&writes)), Err(Refusal::of_item(6, 3)));
}

#[test]
fn reduce_refuses_in_order_and_leaves_the_output() {
    let good = file(0, 0, 4, 4);
    let slim = file(1, 2, 4, 4);
    let mut out = vec![9; good.len()];
    let room = good.len();
    for (bytes, mode, filter, room, number) in [
        (&good[..30], 0, 0, 0, 3),
        (&slim, 0, 1, 0, 7),
        (&slim, 3, 1, 0, 7),
        (&slim, 1, 0, 0, 7),
        (&slim, 1, 1025, 0, 7),
        (&slim, 1, 1, 0, 8),
        (&good, 1, 1, room - 1, 11),
    ] {
        let answer = reduce(bytes, mode, filter, &mut out[..room]);
        assert_eq!(answer, refused(number));
    }
    assert!(out.iter().all(|byte| *byte == 9));
    assert!(reduce(&good, 1, 1, &mut out).is_ok());
}

#[test]
fn join_refuses_in_order_and_leaves_the_output() {
    let good = file(0, 0, 4, 4);
    let mut out = vec![9; 23 + 19 * 8];
    let bad_item = with(&good, 23 + 19, 7);
    assert_eq!(join(&bad_item, &[], &mut out), Err(Refusal::of_item(4, 1)));
    let second = Err(Refusal::of_item(4, 1).in_second());
    assert_eq!(join(&good, &bad_item, &mut out), second);
    let cut = Err(Refusal::new(3).in_second());
    assert_eq!(join(&good, &good[..40], &mut out), cut);
    // 12 before 13 before 11.
    let many = file(2, 8, 0xFFFF_FFFF, 4);
    assert_eq!(join(&good, &many, &mut []), refused(12));
    let later = encode(&check(&many).unwrap(), &items(9)[5..]);
    assert_eq!(join(&good, &later, &mut []), refused(13));
    let later = whole(&items(9)[5..]);
    let short = out.len() - 1;
    assert_eq!(join(&good, &later, &mut out[..short]), refused(11));
    assert!(out.iter().all(|byte| *byte == 9));
    assert!(join(&good, &later, &mut out).is_ok());
}

#[test]
fn join_of_empty_files_never_falls() {
    let (empty, good) = (whole(&[]), file(0, 0, 4, 4));
    let mut out = vec![9; good.len() + 1];
    assert_eq!(join(&good, &empty, &mut out), check(&good));
    assert_eq!(out, [&good[..], &[9]].concat());
    assert_eq!(join(&empty, &good, &mut out), check(&good));
    assert_eq!(out, [&good[..], &[9]].concat());
}

#[test]
fn join_over_a_million_items_is_refused_13() {
    let half = whole(&vec![Item::read(1, 1); 500_001]);
    assert_eq!(join(&half, &half, &mut []), refused(13));
    let exactly = whole(&vec![Item::read(1, 1); 499_999]);
    assert_eq!(join(&half, &exactly, &mut []), refused(11));
}

#[test]
fn joined_kinds() {
    let mut out = vec![0; 23 + 19 * 2];
    for (one, two, joined) in [
        (0, 0, 0),
        (0, 1, 1),
        (1, 0, 1),
        (1, 1, 1),
        (0, 2, 2),
        (2, 0, 2),
        (1, 2, 2),
        (2, 1, 2),
        (2, 2, 2),
    ] {
        let of_kind = |kind: u64| file(kind, kind.min(1) * (4 + kind), 1, 1);
        let header = join(&of_kind(one), &of_kind(two), &mut out).unwrap();
        assert_eq!(header.kind, joined, "{one} with {two}");
        assert_eq!(header.filter, [0, 5, 6][one.max(two) as usize]);
        assert_eq!((header.references, header.items), (2, 2));
    }
}

#[test]
fn replay_refuses_in_order_and_leaves_the_buffers() {
    let slim = file(2, 2, 4, 4);
    let noise = [
        Frame::clean(7),
        Frame::written(8),
        Frame::written(7),
        Frame::clean(u64::MAX),
        Frame::written(9),
    ];
    let (mut cache, mut events) = (noise, [3; 16]);
    for (bytes, size, places, resident, room, number) in [
        (&slim[..22], 0, 5, 9, 16, 1),
        (&slim[..], 0, 5, 9, 16, 7),
        (&slim, 4097, 5, 9, 16, 7),
        (&slim, 1, 5, 9, 16, 9),
        (&slim, 2, 5, 3, 15, 10),
        (&slim, 2, 1, 1, 15, 10),
        (&slim, 3, 5, 3, 15, 10),
        (&slim, 4, 5, 4, 15, 10),
        (&slim, 6, 5, 1, 15, 10),
        (&slim, 2, 5, 2, 15, 11),
        (&slim, 2, 5, 2, 12, 11),
    ] {
        let answer = replay(
            bytes,
            size,
            &mut cache[..places],
            resident,
            &mut events[..room],
        );
        assert_eq!(answer, Err((Refusal::new(number), resident as u64)));
    }
    assert_eq!((cache, events), (noise, [3; 16]));
    assert!(replay(&slim, 2, &mut cache, 2, &mut events).is_ok());
}

/// A page is the same page whatever its mark, the first and the last too.
#[test]
fn a_page_twice_is_refused_with_any_marks() {
    let file = file(0, 0, 4, 4);
    for page in [7, 0, u64::MAX] {
        for marks in [[false, false], [false, true], [true, false], [true, true]] {
            let mut cache = marks.map(|written| Frame { page, written });
            let answer = replay(&file, 2, &mut cache, 2, &mut [0; 16]);
            assert_eq!(answer, Err((Refusal::new(10), 2)));
        }
    }
}

#[test]
fn places_beyond_keep_what_they_had() {
    let short = whole(&items(2));
    let beyond = [Frame::clean(78), Frame::written(79)];
    let mut cache = [Frame::clean(1), Frame::written(77), beyond[0], beyond[1]];
    let mut events = [5; 12];
    let summary = replay(&short, 3, &mut cache, 1, &mut events).unwrap();
    // Page 0 is fetched, page 1 was there from the start.
    assert_eq!((summary.fetches, summary.resident), (1, 2));
    assert_eq!(cache[..2], [1, 0].map(Frame::clean));
    assert_eq!(cache[2..], beyond);
    assert_eq!(events, [0, 0, 0, 0, 5, 5, 5, 5, 5, 5, 5, 5]);
    let mut out = vec![9; short.len() + 4];
    reduce(&short, 2, 1, &mut out).unwrap();
    assert_eq!(out[short.len()..], [9; 4]);
}
