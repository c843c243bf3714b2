//! The measure is right: on functions of which it is known what they take.

use stack::own_thread;
use stack::painted::PAINTED;
use std::hint::black_box;

/// What a frame has besides its array: saved registers, the way to 16.
const BESIDES: usize = 128;

/// On aarch64 a call leaves it in a register.
const RETURN_ADDRESS: usize = if cfg!(target_arch = "x86_64") { 8 } else { 0 };

extern "C" fn nothing() {}

/// Writes an array of so many bytes.
extern "C" fn an_array<const BYTES: usize>() {
    black_box(&mut [1_u8; BYTES]);
}

/// Adds its nine arguments up, each with another weight.
extern "C" fn sum(a: u64, b: u64, c: u64, d: u64, e: u64, f: u64, g: u64, h: u64, i: u64) -> u64 {
    [a, b, c, d, e, f, g, h, i]
        .iter()
        .fold(0, |sum, number| 10 * sum + number)
}

fn depth(function: extern "C" fn()) -> usize {
    // SAFETY: the function takes nothing, and any thread can call it.
    unsafe { own_thread::call(function as usize, &[0; 9]) }.depth
}

#[test]
fn a_function_that_does_nothing_takes_its_return_address() {
    assert_eq!(depth(nothing), RETURN_ADDRESS);
}

#[test]
fn an_array_is_measured_and_hardly_more() {
    for (function, bytes) in [
        (an_array::<1024> as extern "C" fn(), 1024),
        (an_array::<{ 9 << 10 }>, 9 << 10),
        (an_array::<{ 16 << 10 }>, 16 << 10),
        (an_array::<{ 300 << 10 }>, 300 << 10),
    ] {
        let depth = depth(function);
        assert!(
            depth >= bytes && depth <= bytes + BESIDES,
            "{bytes}: {depth}"
        );
    }
}

/// Nothing is left from the call before.
#[test]
fn a_shallow_call_after_a_deep_one() {
    assert!(depth(an_array::<{ 64 << 10 }>) > 64 << 10);
    assert_eq!(depth(nothing), RETURN_ADDRESS);
}

#[test]
fn what_is_deeper_than_painted_is_told_as_that_deep() {
    assert_eq!(depth(an_array::<{ PAINTED + 4096 }>), PAINTED);
}

#[test]
fn arguments_and_answer_arrive_in_their_places() {
    let arguments = [1, 2, 3, 4, 5, 6, 7, 8, 9];
    // SAFETY: it takes nine numbers, and any thread can call it.
    let called = unsafe { own_thread::call(sum as *const () as usize, &arguments) };
    assert_eq!(called.answer, 123_456_789);
}
