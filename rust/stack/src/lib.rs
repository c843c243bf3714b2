//! How much stack the archive's functions and the two programs take. It is
//! measured: the stack is painted before a call and looked at after it.

pub mod figures;
pub mod inputs;
pub mod library;
pub mod own_thread;
pub mod painted;
pub mod programs;
