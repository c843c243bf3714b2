//! The proved library, as safe functions over its archive.

mod archive;
mod row;

use row::Row;
pub use types::{Frame, Header, Library, Refusal, Summary};

/// Checks a trace file and answers its header values.
pub fn check(file: &[u8]) -> Result<Header, Refusal> {
    let mut row = Row::new();
    archive::check(file, &mut row);
    row.header()
}

/// Writes the reduction of a whole trace file. The mode is the kind written:
/// 1 FastSlim, 2 FastSlim-Demand.
pub fn reduce(file: &[u8], mode: u64, filter: u64, out: &mut [u8]) -> Result<Header, Refusal> {
    let mut row = Row::new();
    archive::reduce(file, mode, filter, out, &mut row);
    row.header()
}

/// Writes the items of the first file, then those of the second.
pub fn join(first: &[u8], second: &[u8], out: &mut [u8]) -> Result<Header, Refusal> {
    let mut row = Row::new();
    archive::join(first, second, out, &mut row);
    row.header()
}

/// Replays a trace file with an LRU cache of `size` pages that starts as the
/// first `resident` frames of `cache`. Each fetch writes four numbers to
/// `events`: time, page, evicted page, and what that was (`types::event`). A
/// refusal gives the resident count back.
pub fn replay(
    file: &[u8],
    size: u64,
    cache: &mut [Frame],
    resident: usize,
    events: &mut [u64],
) -> Result<Summary, (Refusal, u64)> {
    let mut row = Row::new();
    archive::replay(file, size, cache, resident, events, &mut row);
    row.summary()
}

/// The functions of this package behind the shared trait.
#[derive(Clone, Copy, Debug)]
pub struct Proved;

impl Library for Proved {
    fn check(&self, file: &[u8]) -> Result<Header, Refusal> {
        check(file)
    }

    fn reduce(
        &self,
        file: &[u8],
        mode: u64,
        filter: u64,
        out: &mut [u8],
    ) -> Result<Header, Refusal> {
        reduce(file, mode, filter, out)
    }

    fn join(&self, first: &[u8], second: &[u8], out: &mut [u8]) -> Result<Header, Refusal> {
        join(first, second, out)
    }

    fn replay(
        &self,
        file: &[u8],
        size: u64,
        cache: &mut [Frame],
        resident: usize,
        events: &mut [u64],
    ) -> Result<Summary, (Refusal, u64)> {
        replay(file, size, cache, resident, events)
    }
}
