//! Hash maps keyed by page. Pages are plain numbers and nobody chooses them
//! against us, so one multiplication takes the place of the standard hash.

use std::collections::{HashMap, HashSet};
use std::hash::{BuildHasherDefault, Hasher};

/// Makes the hash of this file; any other can take its place.
pub type PageState = BuildHasherDefault<PageHasher>;

pub type PageMap<V, S = PageState> = HashMap<u64, V, S>;
pub type PageSet<S = PageState> = HashSet<u64, S>;

#[derive(Default)]
pub struct PageHasher(u64);

/// An odd number without a pattern in its bits: 2^64 over the golden ratio.
const SPREAD: u64 = 0x9E37_79B9_7F4A_7C15;

impl Hasher for PageHasher {
    /// The upper half of the product is folded in, because the map reads both
    /// ends of the hash and the lower half alone leaves the low bits poor.
    fn write_u64(&mut self, page: u64) {
        let product = u128::from(page ^ self.0) * u128::from(SPREAD);
        self.0 = (product >> 64) as u64 ^ product as u64;
    }

    fn write(&mut self, bytes: &[u8]) {
        for byte in bytes {
            self.write_u64(u64::from(*byte));
        }
    }

    fn finish(&self) -> u64 {
        self.0
    }
}
