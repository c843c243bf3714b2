//! Calls a C function on painted stack, on a thread of its own: that has as
//! much stack as is needed, and a guard below it.

use crate::painted::{self, Arguments, Called};
use std::thread;

/// More than the painted words and what lies above them.
const STACK: usize = 4 << 20;

/// Calls the function at an address.
///
/// # Safety
///
/// A C function must be there, for which a call with these arguments is sound
/// on any thread. One that takes more stack than there is ends the process.
pub unsafe fn call(function: usize, arguments: &Arguments) -> Called {
    thread::scope(|scope| {
        // SAFETY: the caller answers for the function, the size for the room.
        let call = || unsafe { painted::call(function, arguments) };
        let builder = thread::Builder::new().stack_size(STACK);
        let thread = builder.spawn_scoped(scope, call).expect("a thread");
        thread.join().expect("a call that returns")
    })
}
