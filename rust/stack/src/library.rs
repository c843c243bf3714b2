//! The four functions of the archive, each called once on a thread of its own
//! and measured.

// Has the archive linked.
use bindings as _;

use crate::own_thread;
use types::Frame;

const ROW: usize = 8;

unsafe extern "C" {
    // Functions, of which only the addresses are wanted here; `bindings` says
    // what they take.
    static shkembruq_check: u8;
    static shkembruq_reduce: u8;
    static shkembruq_join: u8;
    static shkembruq_replay: u8;
}

/// What a call took and answered.
#[derive(Clone, Copy, Debug, PartialEq, Eq)]
pub struct Measured {
    /// Bytes of stack below the caller's frame.
    pub depth: usize,
    /// The refusal's number, 0 if the call was taken.
    pub refusal: u64,
}

pub fn check(file: &[u8]) -> Measured {
    let [start, length] = lent(file);
    // SAFETY: see `measured`.
    unsafe { measured(&raw const shkembruq_check, &[start, length]) }
}

pub fn reduce(file: &[u8], mode: u64, filter: u64, out: &mut [u8]) -> Measured {
    let ([file, file_length], [out, out_length]) = (lent(file), lent_mut(out));
    let arguments = [file, file_length, mode, filter, out, out_length];
    // SAFETY: see `measured`.
    unsafe { measured(&raw const shkembruq_reduce, &arguments) }
}

pub fn join(first: &[u8], second: &[u8], out: &mut [u8]) -> Measured {
    let arguments = [lent(first), lent(second), lent_mut(out)].concat();
    // SAFETY: see `measured`.
    unsafe { measured(&raw const shkembruq_join, &arguments) }
}

pub fn replay(
    file: &[u8],
    size: u64,
    frames: &mut [Frame],
    resident: usize,
    events: &mut [u64],
) -> Measured {
    let ([file, file_length], [frames, frames_length]) = (lent(file), lent_mut(frames));
    let [events, events_length] = lent_mut(events);
    let start = [file, file_length, size, frames, frames_length];
    let arguments = [&start[..], &[resident as u64, events, events_length]].concat();
    // SAFETY: see `measured`.
    unsafe { measured(&raw const shkembruq_replay, &arguments) }
}

/// Calls a function of the archive with these arguments and, after them, a row
/// for its answer.
///
/// # Safety
///
/// The arguments must be those that the function takes before its row, each
/// slice among them as its start and its length and lent until the call is
/// over. The call is sound then: the head of `bindings/src/archive.rs` says why.
unsafe fn measured(function: *const u8, before_row: &[u64]) -> Measured {
    let mut row = [u64::MAX; ROW];
    let mut arguments = [0; _];
    arguments[..before_row.len()].copy_from_slice(before_row);
    [arguments[before_row.len()], _] = lent_mut(&mut row);
    // SAFETY: these are the function's arguments, as the caller says.
    let called = unsafe { own_thread::call(function.expose_provenance(), &arguments) };
    Measured {
        depth: called.depth,
        refusal: row[0],
    }
}

fn lent<T>(slice: &[T]) -> [u64; 2] {
    let start = slice.as_ptr().expose_provenance();
    [start as u64, slice.len() as u64]
}

fn lent_mut<T>(slice: &mut [T]) -> [u64; 2] {
    let start = slice.as_mut_ptr().expose_provenance();
    [start as u64, slice.len() as u64]
}
