//! Loaded into a program before all else (LD_PRELOAD), this stands in for the
//! start of the C library: it has the program's `main` called on painted
//! stack, and tells on standard error how deep that went.

#[path = "../src/painted.rs"]
mod painted;

use std::ffi::{c_char, c_int, c_void};
use std::io::Write;
use std::mem::transmute;
use std::sync::atomic::{AtomicUsize, Ordering};

type Words = *mut *mut c_char;
type Main = unsafe extern "C" fn(c_int, Words, Words) -> c_int;
type Hook = Option<unsafe extern "C" fn()>;
type Start = unsafe extern "C" fn(Main, c_int, Words, Hook, Hook, Hook, *mut c_void) -> c_int;

/// Where the program's own `main` is.
static MAIN: AtomicUsize = AtomicUsize::new(0);

unsafe extern "C" {
    fn dlsym(handle: *mut c_void, name: *const c_char) -> *mut c_void;
}

/// In place of a library: whichever has the name after this one.
const RTLD_NEXT: *mut c_void = -1_isize as *mut c_void;

/// A program calls this first of all, and the C library's would call `main`.
///
/// # Safety
///
/// Only a program's own start calls this, with what the C library wants.
#[unsafe(no_mangle)]
pub unsafe extern "C" fn __libc_start_main(
    main: Main,
    count: c_int,
    words: Words,
    first: Hook,
    last: Hook,
    unload: Hook,
    end: *mut c_void,
) -> c_int {
    MAIN.store(main as usize, Ordering::Relaxed);
    // SAFETY: the C library has a function of this name and type, to which all
    // but `main` is handed on as it came.
    unsafe {
        let start = dlsym(RTLD_NEXT, c"__libc_start_main".as_ptr());
        let start: Start = transmute(start);
        start(measured_main, count, words, first, last, unload, end)
    }
}

unsafe extern "C" fn measured_main(count: c_int, words: Words, environment: Words) -> c_int {
    let mut arguments = [0; 9];
    arguments[0] = count as u64;
    arguments[1] = words.expose_provenance() as u64;
    arguments[2] = environment.expose_provenance() as u64;
    // SAFETY: this is what `main` was to be called with, on the stack on which
    // it was; that has eight MiB, or what `ulimit -s` says.
    let called = unsafe { painted::call(MAIN.load(Ordering::Relaxed), &arguments) };
    let _ = writeln!(std::io::stderr(), "stack {}", called.depth);
    called.answer as c_int
}
