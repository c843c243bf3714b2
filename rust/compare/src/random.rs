//! A small generator of random numbers, the same on every machine for the
//! same seed.

use std::env;

/// Used where the environment names no other seed.
const USUAL_SEED: u64 = 0x7ACE_0001;

/// xorshift64*: enough for choosing test cases.
pub struct Random(u64);

impl Random {
    pub fn new(seed: u64) -> Self {
        // A state of zero would stay zero; and near seeds are spread apart.
        let spread = (seed ^ 0x9E37_79B9_7F4A_7C15).wrapping_mul(0xD6E8_FEB8_6659_FD93);
        Random(spread | 1)
    }

    /// The seed of this run, from SHKEMBRUQ_SEED if that is set.
    pub fn seed() -> u64 {
        match env::var("SHKEMBRUQ_SEED") {
            Ok(text) => text.parse().expect("SHKEMBRUQ_SEED is a whole number"),
            Err(_) => USUAL_SEED,
        }
    }

    pub fn bits(&mut self) -> u64 {
        self.0 ^= self.0 >> 12;
        self.0 ^= self.0 << 25;
        self.0 ^= self.0 >> 27;
        self.0.wrapping_mul(0x2545_F491_4F6C_DD1D)
    }

    /// A number from 0 to one below the bound, which is not 0.
    pub fn below(&mut self, bound: u64) -> u64 {
        let product = u128::from(self.bits()) * u128::from(bound);
        (product >> 64) as u64
    }

    pub fn index(&mut self, bound: usize) -> usize {
        self.below(bound as u64) as usize
    }

    /// True once in so many times.
    pub fn once_in(&mut self, times: u64) -> bool {
        self.below(times) == 0
    }

    pub fn pick<T: Clone>(&mut self, from: &[T]) -> T {
        from[self.index(from.len())].clone()
    }
}
