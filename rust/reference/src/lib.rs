//! The trace library written a second time, from the rules alone: what the
//! proved library is compared with, in its answers and in its speed.

mod check;
mod join;
mod lru;
mod page_map;
mod reduce;
mod replay;
mod run;

pub use check::{check, items};
pub use join::join;
pub use reduce::reduce;
pub use replay::{replay, replay_with};
pub use run::{Run, run};
pub use types::{Frame, Header, Library, Refusal, Summary};

/// The functions of this package behind the shared trait.
#[derive(Clone, Copy, Debug)]
pub struct Reference;

impl Library for Reference {
    fn check(&self, file: &[u8]) -> Result<Header, Refusal> {
        check(file)
    }

    fn reduce(
        &self,
        file: &[u8],
        mode: u64,
        filter: u64,
        out: &mut [u8],
    ) -> Result<Header, Refusal> {
        reduce(file, mode, filter, out)
    }

    fn join(&self, first: &[u8], second: &[u8], out: &mut [u8]) -> Result<Header, Refusal> {
        join(first, second, out)
    }

    fn replay(
        &self,
        file: &[u8],
        size: u64,
        cache: &mut [Frame],
        resident: usize,
        events: &mut [u64],
    ) -> Result<Summary, (Refusal, u64)> {
        replay(file, size, cache, resident, events)
    }
}
