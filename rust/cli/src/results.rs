//! Runs a command on each of its files and prints the results in order.

use crate::crew;
use crate::failure::Failure;
use crate::progress::Progress;
use std::io::{self, ErrorKind, Write};
use std::path::PathBuf;

/// The exit status: the gravest of what happened.
pub fn for_each(
    files: &[PathBuf],
    progress: &Progress,
    work: impl Fn(usize) -> Result<String, Failure> + Sync,
) -> Result<u8, Failure> {
    let numbers: Vec<usize> = (0..files.len()).collect();
    let mut status = 0;
    progress.show(format_args!("0 of {} files", files.len()));
    let end = crew::in_order(
        &numbers,
        |number| work(*number),
        |number, result| {
            progress.clear();
            match result {
                Ok(text) => print(&text)?,
                Err(failure) => {
                    status = status.max(failure.status());
                    eprintln!("{failure}");
                }
            }
            progress.show(format_args!("{} of {} files", number + 1, files.len()));
            Ok(())
        },
    );
    progress.clear();
    end.map(|()| status).or_else(on_closed_output)
}

/// Writes to standard output at once, so that lines on standard error stand
/// where they belong.
pub fn print(text: &str) -> io::Result<()> {
    let mut out = io::stdout().lock();
    out.write_all(text.as_bytes())?;
    out.flush()
}

/// A reader that has seen enough needs no message, but not all was printed.
pub fn on_closed_output(error: io::Error) -> Result<u8, Failure> {
    match error.kind() {
        ErrorKind::BrokenPipe => Ok(2),
        _ => Err(Failure::broken("standard output", error)),
    }
}
