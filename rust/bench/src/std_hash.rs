//! The reference with the hash that a map of Rust's standard library has by
//! itself. It is there for replays: in all else it is the reference.

use reference::{Reference, replay_with};
use std::hash::RandomState;
use types::{Frame, Header, Library, Refusal, Summary};

pub struct StdHash;

impl Library for StdHash {
    fn check(&self, file: &[u8]) -> Result<Header, Refusal> {
        Reference.check(file)
    }

    fn reduce(
        &self,
        file: &[u8],
        mode: u64,
        filter: u64,
        out: &mut [u8],
    ) -> Result<Header, Refusal> {
        Reference.reduce(file, mode, filter, out)
    }

    fn join(&self, first: &[u8], second: &[u8], out: &mut [u8]) -> Result<Header, Refusal> {
        Reference.join(first, second, out)
    }

    fn replay(
        &self,
        file: &[u8],
        size: u64,
        cache: &mut [Frame],
        resident: usize,
        events: &mut [u64],
    ) -> Result<Summary, (Refusal, u64)> {
        replay_with::<RandomState>(file, size, cache, resident, events)
    }
}
