//! The two programs, run as they are and, on x86-64, with a library that has
//! their `main` called on painted stack. They are for x86-64 alone, and on another
//! machine such a library is not compiled.

use std::env;
use std::io::Write;
use std::path::{Path, PathBuf};
use std::process::{Command, Output, Stdio};

const OVERRIDE: &str = "SHKEMBRUQ_PROGRAMS";
const IN_REPOSITORY: &str = concat!(env!("CARGO_MANIFEST_DIR"), "/../../target/bin");

/// Runs a program, or says that this machine is not one for it.
const RUN: &str = concat!(env!("CARGO_MANIFEST_DIR"), "/../../examples/run");

/// What the library says on standard error.
#[cfg(target_arch = "x86_64")]
const SAID: &str = "stack ";

/// What a program took and wrote.
#[cfg(target_arch = "x86_64")]
pub struct Run {
    /// Bytes of stack below the frame that calls `main`.
    pub depth: usize,
    pub output: Vec<u8>,
}

/// Runs a program with this on its standard input, and measures it.
#[cfg(target_arch = "x86_64")]
pub fn measured(name: &str, input: &[u8]) -> Result<Run, String> {
    let mut command = Command::new(program(name)?);
    command.env("LD_PRELOAD", env!("PRELOADED"));
    let output = run(command, input).map_err(|error| format!("{name}: {error}"))?;
    let told = String::from_utf8_lossy(&output.stderr);
    let depth = told
        .strip_prefix(SAID)
        .and_then(|told| told.trim().parse().ok());
    match depth {
        Some(depth) if output.status.success() => Ok(Run {
            depth,
            output: output.stdout,
        }),
        _ => Err(format!("{name}: {}: {told}", output.status)),
    }
}

/// What a program writes when nothing is measured.
pub fn written(name: &str, input: &[u8]) -> Result<Vec<u8>, String> {
    let mut command = Command::new(RUN);
    command.arg(program(name)?);
    let output = run(command, input).map_err(|error| format!("{name}: {error}"))?;
    match output.status.success() {
        true => Ok(output.stdout),
        false => Err(format!(
            "{name}: {}: {}",
            output.status,
            String::from_utf8_lossy(&output.stderr)
        )),
    }
}

fn program(name: &str) -> Result<PathBuf, String> {
    let folder = env::var_os(OVERRIDE);
    let folder = folder.map_or_else(|| Path::new(IN_REPOSITORY).to_path_buf(), PathBuf::from);
    let path = folder.join(name);
    match path.is_file() {
        true => Ok(path),
        false => Err(format!(
            "no program at {}: run `examples/programs reduce replay` first, or set {OVERRIDE} to its folder",
            path.display()
        )),
    }
}

/// A program reads all of its input before it writes, so the input can be
/// written whole before the output is read.
fn run(mut command: Command, input: &[u8]) -> std::io::Result<Output> {
    let mut child = command
        .stdin(Stdio::piped())
        .stdout(Stdio::piped())
        .stderr(Stdio::piped())
        .spawn()?;
    if let Some(mut stdin) = child.stdin.take() {
        stdin.write_all(input)?;
    }
    child.wait_with_output()
}
