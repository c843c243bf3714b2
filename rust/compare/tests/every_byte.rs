//! Short files with each byte set to each value, and with each length: all
//! damage a single byte can do, in all four functions.

use bindings::Proved;
use compare::judge::Seen;
use compare::report::say_seen;
use compare::{Case, Judge, Random};
use reference::Reference;
use types::layout::{encode, whole};
use types::{Frame, Header, Item};

/// The first page and the last, and one that is a byte away from the last.
const ITEMS: [Item; 3] = [
    Item::read(0, 300),
    Item::write(u64::MAX, 300),
    Item::read(0x00FF_FFFF_FFFF_FFFF, 70_000),
];

/// Goes after ITEMS without a time falling.
const LATER: Item = Item::write(0, 70_001);

fn files() -> Vec<Vec<u8>> {
    let reduced = |kind, filter, references| {
        let header = Header {
            kind,
            filter,
            references,
            items: 3,
        };
        encode(&header, &ITEMS)
    };
    vec![
        whole(&[]),
        whole(&ITEMS),
        reduced(1, 2, 3),
        reduced(2, 1024, 0xFFFF_FFFE),
    ]
}

/// The file in each of the functions that take one, on either side of a join.
fn in_all_functions(judge: &mut Judge, file: &[u8]) {
    let file = file.to_vec();
    let room = file.len() + 23;
    judge.insist(&Case::Check { file: file.clone() });
    judge.insist(&Case::Reduce {
        file: file.clone(),
        mode: 2,
        filter: 1,
        out: vec![0xA5; room],
    });
    judge.insist(&Case::Join {
        first: file.clone(),
        second: whole(&[LATER]),
        out: vec![0xA5; room],
    });
    judge.insist(&Case::Join {
        first: whole(&[ITEMS[0]]),
        second: file.clone(),
        out: vec![0xA5; room],
    });
    judge.insist(&Case::Replay {
        file,
        size: 2,
        cache: vec![Frame::written(u64::MAX), Frame::clean(0), Frame::written(9)],
        resident: 2,
        events: vec![5; 13],
    });
}

fn finish(test: &str, seen: &Seen, least: u64) {
    say_seen(test, Random::seed(), seen);
    assert!(seen.cases >= least);
    for number in [1, 2, 3, 4, 6] {
        assert!(seen.refused[number] > 0, "refusal {number} not seen");
    }
    seen.insist_on_the_table();
    assert!(seen.evicted.page_0 > 0 && seen.evicted.last_page > 0);
}

#[test]
fn each_byte_with_each_value() {
    let mut judge = Judge::new(&Proved, &Reference);
    for file in files() {
        for at in 0..file.len() {
            for byte in 0..=255 {
                let mut damaged = file.clone();
                damaged[at] = byte;
                in_all_functions(&mut judge, &damaged);
            }
        }
    }
    finish("each byte", &judge.seen, (23 + 3 * 80) * 256 * 5);
}

#[test]
fn each_length() {
    let mut judge = Judge::new(&Proved, &Reference);
    for file in files() {
        for length in 0..file.len() + 45 {
            for filler in [0, 5, 255] {
                let mut damaged = file.clone();
                damaged.resize(length, filler);
                in_all_functions(&mut judge, &damaged);
            }
        }
    }
    say_seen("each length", Random::seed(), &judge.seen);
    assert!(judge.seen.refused[1] > 0 && judge.seen.refused[3] > 0);
    judge.seen.insist_on_the_table();
    assert!(judge.seen.taken > 0);
}

/// Header values at all their edges against each other.
#[test]
fn header_values_at_their_edges() {
    let mut judge = Judge::new(&Proved, &Reference);
    let edges = [0, 1, 2, 3, 999_999, 1_000_000, 1_000_001, 0xFFFF_FFFF];
    for kind in [0, 1, 2, 3, 255] {
        for filter in [0, 1, 2, 1023, 1024, 1025, 0xFFFF] {
            for references in edges {
                for items in edges {
                    let header = Header {
                        kind,
                        filter,
                        references,
                        items,
                    };
                    for count in 0..=3 {
                        let file = encode(&header, &ITEMS[..count]);
                        in_all_functions(&mut judge, &file);
                    }
                }
            }
        }
    }
    say_seen("header values", Random::seed(), &judge.seen);
    assert_eq!(judge.seen.cases, 5 * 7 * 8 * 8 * 4 * 5);
    for number in [2, 3, 8, 9, 13] {
        assert!(judge.seen.refused[number] > 0, "refusal {number} not seen");
    }
}
