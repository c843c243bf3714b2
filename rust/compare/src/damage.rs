//! Damage to a file, in every field it has.

use crate::Random;
use types::layout::{
    FILTER, Field, HEADER_BYTES, ITEM_BYTES, ITEMS, KIND, READ_TAG, REFERENCES, WRITE_TAG,
};
use types::limits::{LARGEST_FILTER, MOST_ITEMS};

/// Where an item's page and time start in its bytes.
const PAGE: usize = 3;
const TIME: usize = 11;

/// Damages a file in one to three places. Some damage leaves it good.
pub fn damaged(random: &mut Random, file: &[u8]) -> Vec<u8> {
    let mut bytes = file.to_vec();
    for _ in 0..1 + random.below(3) {
        if bytes.len() < HEADER_BYTES {
            break;
        }
        match random.below(10) {
            0 => header_mark(random, &mut bytes),
            1 | 2 => header_value(random, &mut bytes),
            3 => length(random, &mut bytes),
            _ => item(random, &mut bytes),
        }
    }
    bytes
}

fn field(random: &mut Random) -> Field {
    match random.below(4) {
        0 => KIND,
        1 => FILTER,
        2 => REFERENCES,
        _ => ITEMS,
    }
}

/// The tag, or one of the two bytes of the length.
fn header_mark(random: &mut Random, bytes: &mut [u8]) {
    let at = field(random).at + random.index(3);
    change(random, &mut bytes[at]);
}

fn header_value(random: &mut Random, bytes: &mut [u8]) {
    let field = field(random);
    let old = field.value(bytes);
    let edges = [0, 1, 2, 3, LARGEST_FILTER, MOST_ITEMS, u64::MAX];
    let new = match random.below(4) {
        0 => old.wrapping_add(1),
        1 => old.wrapping_sub(1),
        2 => random.pick(&edges).wrapping_add(random.below(2)),
        _ => random.bits(),
    };
    let length = usize::from(field.length);
    bytes[field.at + 3..][..length].copy_from_slice(&new.to_le_bytes()[..length]);
}

/// Cut or extended, by bytes or by an item.
fn length(random: &mut Random, bytes: &mut Vec<u8>) {
    let by = match random.once_in(2) {
        true => ITEM_BYTES,
        false => 1 + random.index(40),
    };
    let length = match random.once_in(2) {
        true => bytes.len().saturating_sub(by),
        false => bytes.len() + by,
    };
    let filler = random.bits() as u8;
    bytes.resize(length, filler);
}

/// One item's tag, length, page or time.
fn item(random: &mut Random, bytes: &mut [u8]) {
    let count = (bytes.len() - HEADER_BYTES) / ITEM_BYTES;
    if count == 0 {
        return;
    }
    let number = random.index(count);
    let at = HEADER_BYTES + ITEM_BYTES * number;
    match random.below(8) {
        0 => {
            let mark = at + random.index(3);
            change(random, &mut bytes[mark]);
        }
        // The two tags that an item has, and their neighbours.
        1 | 2 => bytes[at] = random.pick(&[READ_TAG - 1, READ_TAG, WRITE_TAG, WRITE_TAG + 1]),
        // No damage: any page will do, the first and the last too.
        3 => put(bytes, at + PAGE, random.pick(&[0, u64::MAX])),
        // What is damage stays so at any page.
        4 => {
            put(bytes, at + PAGE, u64::MAX);
            fall(random, bytes, number, at);
        }
        _ => fall(random, bytes, number, at),
    }
}

/// Sets a time below the one before, by as little as possible or by much.
fn fall(random: &mut Random, bytes: &mut [u8], number: usize, at: usize) {
    let before = match number {
        0 => 0,
        _ => u64::from_le_bytes(
            bytes[at - ITEM_BYTES + TIME..][..8]
                .try_into()
                .expect("eight bytes"),
        ),
    };
    let new = match random.below(3) {
        0 => 0,
        1 => before.saturating_sub(1),
        _ => random.below(before.max(1)),
    };
    put(bytes, at + TIME, new);
}

fn put(bytes: &mut [u8], at: usize, number: u64) {
    bytes[at..][..8].copy_from_slice(&number.to_le_bytes());
}

/// Another value: the next one, one bit off, or any.
fn change(random: &mut Random, byte: &mut u8) {
    *byte = match random.below(3) {
        0 => byte.wrapping_add(1),
        1 => *byte ^ (1 << random.below(8)),
        _ => byte.wrapping_add(1 + random.below(255) as u8),
    };
}
