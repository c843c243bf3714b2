//! Prints how much stack the archive's functions and the two programs take.

#[cfg(target_arch = "x86_64")]
use stack::figures::of_programs;
use stack::figures::{Figure, of_check, of_join, of_reduce, of_replay};
use std::env::consts::ARCH;
use std::process::ExitCode;

fn main() -> ExitCode {
    let call = format!("call, on {ARCH}");
    println!("{call:<38} {:>8} {:>8}", "bytes", "KiB");
    for figures in [of_check, of_reduce, of_join, of_replay, of_programs] {
        match figures() {
            Ok(figures) => figures.iter().for_each(line),
            Err(error) => {
                eprintln!("stack: {error}");
                return ExitCode::FAILURE;
            }
        }
    }
    ExitCode::SUCCESS
}

fn line(figure: &Figure) {
    let Figure { name, depth } = figure;
    println!("{name:<38} {depth:>8} {:>8.2}", *depth as f64 / 1024.0);
}

/// The programs are for x86-64, and their stack is painted only there.
#[cfg(not(target_arch = "x86_64"))]
fn of_programs() -> Result<Vec<Figure>, String> {
    println!("programs: not measured, since they are for x86-64 alone");
    Ok(Vec::new())
}
