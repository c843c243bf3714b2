//! The hash decides how fast a page is found, and nothing else.

use reference::{replay, replay_with};
use std::hash::RandomState;
use types::layout::whole;
use types::{Frame, Item};

const ITEMS: u64 = 3_000;

fn file() -> Vec<u8> {
    let item = |time| Item {
        page: time * time % 701,
        time,
        written: time % 10 < 3,
    };
    whole(&(0..ITEMS).map(item).collect::<Vec<_>>())
}

#[test]
fn a_replay_is_the_same() {
    let file = file();
    for (size, resident) in [(1, 0), (3, 2), (64, 64), (500, 7)] {
        let frame = |page| Frame {
            page,
            written: page % 2 == 0,
        };
        let mut lent: (Vec<Frame>, _) = ((600..1_200).map(frame).collect(), vec![5; 12_001]);
        let mut others = lent.clone();
        let answer = replay(&file, size, &mut lent.0, resident, &mut lent.1);
        assert!(answer.is_ok());
        let other = replay_with::<RandomState>(&file, size, &mut others.0, resident, &mut others.1);
        assert_eq!((answer, lent), (other, others));
    }
}

#[test]
fn a_page_twice_is_refused() {
    let mut cache = [Frame::clean(4), Frame::clean(9), Frame::written(4)];
    let mut events = vec![0; 4 * ITEMS as usize];
    let answer = replay_with::<RandomState>(&file(), 3, &mut cache, 3, &mut events);
    assert_eq!(answer.map_err(|(refusal, _)| refusal.number), Err(10));
}
