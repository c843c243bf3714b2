//! What a replay writes of each fetch: time, page, evicted page or 0, and
//! whether that was clean or written. Every number of 64 bits is a page, so the
//! fourth number alone says whether anything was evicted.

use crate::Frame;

pub const NUMBERS_PER_EVENT: usize = 4;

/// The fourth number: what was evicted.
pub const NOTHING: u64 = 0;
pub const CLEAN: u64 = 1;
pub const WRITTEN: u64 = 2;

/// The event of a fetch that took this frame's place, or a free one. Then the
/// third number is 0, as it is where page 0 was evicted.
pub fn event(time: u64, page: u64, evicted: Option<Frame>) -> [u64; NUMBERS_PER_EVENT] {
    match evicted {
        None => [time, page, 0, NOTHING],
        Some(frame) if frame.written => [time, page, frame.page, WRITTEN],
        Some(frame) => [time, page, frame.page, CLEAN],
    }
}

/// How many pages these events move: each is fetched, and a written one that
/// goes is brought back.
pub fn transfers(events: &[u64]) -> u64 {
    let (events, _) = events.as_chunks::<NUMBERS_PER_EVENT>();
    let brought_back = events.iter().filter(|event| event[3] == WRITTEN).count();
    (events.len() + brought_back) as u64
}

#[cfg(test)]
mod tests {
    use super::*;

    #[test]
    fn the_fourth_number() {
        assert_eq!(event(5, 6, None), [5, 6, 0, 0]);
        assert_eq!(event(5, 6, Some(Frame::clean(7))), [5, 6, 7, 1]);
        assert_eq!(event(5, 6, Some(Frame::written(7))), [5, 6, 7, 2]);
    }

    #[test]
    fn page_0_is_told_from_nothing_by_the_fourth_number_alone() {
        assert_eq!(event(5, 6, None), [5, 6, 0, NOTHING]);
        assert_eq!(event(5, 6, Some(Frame::clean(0))), [5, 6, 0, CLEAN]);
        assert_eq!(event(5, 6, Some(Frame::written(0))), [5, 6, 0, WRITTEN]);
    }

    #[test]
    fn the_last_page_is_a_page() {
        let last = u64::MAX;
        assert_eq!(event(5, last, None), [5, last, 0, NOTHING]);
        assert_eq!(event(5, 6, Some(Frame::clean(last))), [5, 6, last, CLEAN]);
        let written = event(5, 6, Some(Frame::written(last)));
        assert_eq!(written, [5, 6, last, WRITTEN]);
    }

    #[test]
    fn a_written_page_is_moved_twice() {
        let frames = [None, Some(Frame::clean(2)), Some(Frame::written(0))];
        let events = frames.map(|frame| event(2, 2, frame));
        assert_eq!(transfers(&events.concat()), 4);
        let last = event(2, 2, Some(Frame::written(u64::MAX)));
        assert_eq!(transfers(&last), 2);
        assert_eq!(transfers(&[]), 0);
    }
}
