//! Calls a C function on painted stack and tells how deep the paint changed.
//!
//! The painted words lie on this thread's own stack, far below all frames of
//! this code. For the call the stack pointer is set to their upper end. So
//! what has changed in them afterwards is the called function's alone: what it
//! and the functions that it calls have written, and on x86-64 first of all its
//! return address, which the call itself writes. Nothing has to be taken off.
//! The end of a frame is seen only if something is written there or below it:
//! on x86-64 every call out of the frame does so, on aarch64 one of a function
//! that saves registers. A signal in between would be seen as well.

use std::ptr;

/// No address, no small number, no text.
const PAINT: u64 = 0xB10F_5A3C_E796_D2C4;

const WORD: usize = size_of::<u64>();

/// From a frame of this code down to the painted words. What runs between
/// painting and looking has its frames in here.
const GAP: usize = 64 << 10;

/// How many bytes are painted. A function that goes deeper is told as going
/// so deep.
pub const PAINTED: usize = 1 << 20;

/// A C function's arguments, whole numbers or addresses, and zeros after them.
pub type Arguments = [u64; 9];

pub struct Called {
    pub answer: u64,
    /// Bytes below the caller's frame, with the return address if the call
    /// itself has written it there.
    pub depth: usize,
}

/// Calls the function at an address.
///
/// # Safety
///
/// A C function must be there, for which a call with these arguments is sound.
/// Below the caller's frame this thread's stack must have room for the words
/// that are painted, for the gap above them, and for all that the function
/// takes.
#[inline(never)]
pub unsafe fn call(function: usize, arguments: &Arguments) -> Called {
    let here = 0_u8;
    // A C function is called with a stack pointer that 16 divides.
    let top = ((&raw const here).addr() - GAP) & !15;
    // SAFETY: the caller answers for the function and for the room.
    unsafe {
        paint(top);
        Called {
            answer: call_at(top, function, arguments),
            depth: depth(top),
        }
    }
}

/// # Safety
///
/// As for `call`: the words below must be the free end of this thread's stack.
/// They are in no Rust object then, and volatile writes may have them.
unsafe fn paint(top: usize) {
    for below in 1..=PAINTED / WORD {
        // SAFETY: as the caller says.
        unsafe { word(top - WORD * below).write_volatile(PAINT) };
    }
}

/// How far below the last word lies that is not as it was painted.
///
/// # Safety
///
/// As for `paint`.
unsafe fn depth(top: usize) -> usize {
    // SAFETY: as the caller says.
    let is_changed = |below: &usize| unsafe { word(top - WORD * below).read_volatile() } != PAINT;
    let deepest = (1..=PAINTED / WORD).rev().find(is_changed);
    WORD * deepest.unwrap_or(0)
}

/// Calls the function with the stack pointer at the top.
///
/// # Safety
///
/// As for `call`, and the words around the top must be free.
unsafe fn call_at(top: usize, function: usize, arguments: &Arguments) -> u64 {
    let (registers, others) = arguments.split_first_chunk().expect("more than registers");
    for (number, other) in others.iter().enumerate() {
        // SAFETY: these words are free, in the gap.
        unsafe { word(top + WORD * number).write_volatile(*other) };
    }
    // SAFETY: the caller answers for the call.
    unsafe { machine::call_at(top, function, registers) }
}

/// In both machines' assembly the stack pointer is kept in a register that a C
/// function leaves as it was, and all that one may change is named as changed.
#[cfg(target_arch = "x86_64")]
mod machine {
    use std::arch::asm;

    /// So many arguments are handed over in registers, the others on the stack.
    const IN_REGISTERS: usize = 6;

    /// # Safety
    ///
    /// As for the function of this name above, which has put the others there.
    pub unsafe fn call_at(top: usize, function: usize, registers: &[u64; IN_REGISTERS]) -> u64 {
        let answer;
        // SAFETY: the caller answers for the call.
        unsafe {
            asm!(
                "mov r12, rsp",
                "mov rsp, {top}",
                "call {function}",
                "mov rsp, r12",
                top = in(reg) top,
                function = in(reg) function,
                in("rdi") registers[0],
                in("rsi") registers[1],
                in("rdx") registers[2],
                in("rcx") registers[3],
                in("r8") registers[4],
                in("r9") registers[5],
                lateout("rax") answer,
                out("r12") _,
                clobber_abi("C"),
            );
        }
        answer
    }
}

#[cfg(target_arch = "aarch64")]
mod machine {
    use std::arch::asm;

    /// So many arguments are handed over in registers, the others on the stack.
    const IN_REGISTERS: usize = 8;

    /// # Safety
    ///
    /// As for the function of this name above, which has put the others there.
    pub unsafe fn call_at(top: usize, function: usize, registers: &[u64; IN_REGISTERS]) -> u64 {
        let answer;
        // SAFETY: the caller answers for the call.
        unsafe {
            asm!(
                "mov x20, sp",
                "mov sp, {top}",
                "blr {function}",
                "mov sp, x20",
                top = in(reg) top,
                function = in(reg) function,
                inlateout("x0") registers[0] => answer,
                in("x1") registers[1],
                in("x2") registers[2],
                in("x3") registers[3],
                in("x4") registers[4],
                in("x5") registers[5],
                in("x6") registers[6],
                in("x7") registers[7],
                out("x20") _,
                clobber_abi("C"),
            );
        }
        answer
    }
}

fn word(address: usize) -> *mut u64 {
    ptr::with_exposed_provenance_mut(address)
}
