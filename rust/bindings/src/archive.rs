//! The archive's four functions, each behind a safe one.
//!
//! All four calls are sound for the same reason. A pointer and a length taken
//! from one Rust slice name memory that is valid for that length; the borrow
//! lasts for the whole call, and no two lent slices can overlap. The proofs
//! of the archive's functions keep every access inside the slices and the row
//! they were handed, for all inputs, and the functions keep nothing for later.
//! A frame is laid out on both sides as C does it, and what the archive leaves
//! in its mark is one of the two values that it has for a truth value, which
//! are Rust's.

use crate::row::{NUMBERS, Row};
use types::Frame;

unsafe extern "C" {
    fn shkembruq_check(file: *const u8, file_len: usize, row: *mut [u64; NUMBERS]);

    fn shkembruq_reduce(
        file: *const u8,
        file_len: usize,
        mode: u64,
        filter: u64,
        out: *mut u8,
        out_len: usize,
        row: *mut [u64; NUMBERS],
    );

    fn shkembruq_join(
        first: *const u8,
        first_len: usize,
        second: *const u8,
        second_len: usize,
        out: *mut u8,
        out_len: usize,
        row: *mut [u64; NUMBERS],
    );

    fn shkembruq_replay(
        file: *const u8,
        file_len: usize,
        size: u64,
        frames: *mut Frame,
        frames_len: usize,
        resident: usize,
        events: *mut u64,
        events_len: usize,
        row: *mut [u64; NUMBERS],
    );
}

pub fn check(file: &[u8], row: &mut Row) {
    // SAFETY: see the head of this file.
    unsafe { shkembruq_check(file.as_ptr(), file.len(), &mut row.0) }
}

pub fn reduce(file: &[u8], mode: u64, filter: u64, out: &mut [u8], row: &mut Row) {
    // SAFETY: see the head of this file.
    unsafe {
        shkembruq_reduce(
            file.as_ptr(),
            file.len(),
            mode,
            filter,
            out.as_mut_ptr(),
            out.len(),
            &mut row.0,
        )
    }
}

pub fn join(first: &[u8], second: &[u8], out: &mut [u8], row: &mut Row) {
    // SAFETY: see the head of this file.
    unsafe {
        shkembruq_join(
            first.as_ptr(),
            first.len(),
            second.as_ptr(),
            second.len(),
            out.as_mut_ptr(),
            out.len(),
            &mut row.0,
        )
    }
}

pub fn replay(
    file: &[u8],
    size: u64,
    frames: &mut [Frame],
    resident: usize,
    events: &mut [u64],
    row: &mut Row,
) {
    // SAFETY: see the head of this file.
    unsafe {
        shkembruq_replay(
            file.as_ptr(),
            file.len(),
            size,
            frames.as_mut_ptr(),
            frames.len(),
            resident,
            events.as_mut_ptr(),
            events.len(),
            &mut row.0,
        )
    }
}

/// What the numbers of a row mean is for its readers; here all eight are
/// looked at, so that the archive's side of the bargain is seen to be kept.
#[cfg(test)]
mod tests {
    use super::*;
    use types::layout::whole;

    #[test]
    fn a_taken_check_ends_its_row_with_0() {
        let mut row = Row::new();
        check(&whole(&[]), &mut row);
        assert_eq!((row.0[0], &row.0[3..]), (0, &[0; 5][..]));
    }

    #[test]
    fn a_refused_row_holds_nothing_else() {
        let mut row = Row::new();
        check(&[], &mut row);
        assert_eq!(row.0, [1, 1, 0, 0, 0, 0, 0, 0]);
        let mut row = Row::new();
        reduce(&whole(&[]), 3, 1, &mut [], &mut row);
        assert_eq!(row.0, [7, 1, 0, 0, 0, 0, 0, 0]);
        let mut row = Row::new();
        join(&whole(&[]), &[], &mut [], &mut row);
        assert_eq!(row.0, [1, 2, 0, 0, 0, 0, 0, 0]);
    }

    #[test]
    fn a_refused_replay_gives_the_resident_count_back() {
        let mut row = Row::new();
        replay(&whole(&[]), 2, &mut [], 9, &mut [], &mut row);
        assert_eq!(row.0, [10, 1, 0, 0, 0, 0, 9, 0]);
    }
}
