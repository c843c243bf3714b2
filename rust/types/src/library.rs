//! The four functions as one trait, so that a test, a benchmark or a program
//! can take either implementation.

use crate::{Frame, Header, Refusal, Summary};

/// An implementation of the trace library.
///
/// In every call, what a lent buffer holds beyond what is written stays as it
/// was, and on a refusal all of it does.
pub trait Library {
    /// Checks a trace file and answers its header values.
    fn check(&self, file: &[u8]) -> Result<Header, Refusal>;

    /// Writes the reduction of a whole trace file. The mode is the kind
    /// written: 1 FastSlim, 2 FastSlim-Demand.
    fn reduce(
        &self,
        file: &[u8],
        mode: u64,
        filter: u64,
        out: &mut [u8],
    ) -> Result<Header, Refusal>;

    /// Writes the items of the first file, then those of the second.
    fn join(&self, first: &[u8], second: &[u8], out: &mut [u8]) -> Result<Header, Refusal>;

    /// Replays a trace file with an LRU cache of `size` pages that starts as
    /// the first `resident` frames of `cache`. Each fetch writes the numbers of
    /// an event to `events`. A refusal gives the resident count back.
    fn replay(
        &self,
        file: &[u8],
        size: u64,
        cache: &mut [Frame],
        resident: usize,
        events: &mut [u64],
    ) -> Result<Summary, (Refusal, u64)>;
}
