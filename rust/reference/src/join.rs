//! The join of two files.

use crate::check::{check, items};
use types::layout::{HEADER_BYTES, file_bytes, put_header};
use types::limits::{MOST_ITEMS, MOST_REFERENCES};
use types::{Header, Refusal};

/// Writes the items of the first file, then those of the second, and answers
/// the header values of the joined file.
pub fn join(first: &[u8], second: &[u8], out: &mut [u8]) -> Result<Header, Refusal> {
    let one = check(first)?;
    let two = check(second).map_err(Refusal::in_second)?;
    if times_fall_between(first, second) {
        return Err(Refusal::new(12));
    }
    let joined = Header {
        kind: joined_kind(one.kind, two.kind),
        filter: one.filter.max(two.filter),
        references: one.references + two.references,
        items: one.items + two.items,
    };
    if joined.items > MOST_ITEMS || joined.references > MOST_REFERENCES {
        return Err(Refusal::new(13));
    }
    if out.len() < file_bytes(joined.items as usize) {
        return Err(Refusal::new(11));
    }
    put_header(out, &joined);
    let seam = first.len();
    out[HEADER_BYTES..seam].copy_from_slice(&first[HEADER_BYTES..]);
    out[seam..][..second.len() - HEADER_BYTES].copy_from_slice(&second[HEADER_BYTES..]);
    Ok(joined)
}

fn times_fall_between(first: &[u8], second: &[u8]) -> bool {
    match (items(first).next_back(), items(second).next()) {
        (Some(last), Some(next)) => next.time < last.time,
        _ => false,
    }
}

fn joined_kind(one: u64, two: u64) -> u64 {
    match (one, two) {
        (0, 0) => 0,
        (0, 1) | (1, 0) | (1, 1) => 1,
        _ => 2,
    }
}
