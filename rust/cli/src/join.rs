//! shkembruq join

use crate::arguments::{Known, parse};
use crate::failure::Failure;
use crate::input::read;
use crate::output::write_whole;
use crate::places::keep_apart;
use crate::progress::Progress;
use crate::results::{on_closed_output, print};
use std::ffi::OsString;
use std::path::{Path, PathBuf};
use types::layout::file_bytes;
use types::{Header, Refusal};

const KNOWN: Known = Known {
    valued: &["-o"],
    flags: &["--progress"],
};

/// Up to here a refusal is one of a file by itself.
const LAST_OF_CHECK: u64 = 6;

pub fn run(arguments: &[OsString]) -> Result<u8, Failure> {
    let arguments = parse(arguments, &KNOWN)?;
    let output = Path::new(arguments.required("-o")?);
    let files = arguments.at_least(2)?;
    keep_apart(files, output)?;
    let progress = Progress::new(arguments.has("--progress"));
    let joined = join_all(files, &progress);
    progress.clear();
    let (header, joined) = joined?;
    write_whole(output, &joined)?;
    print(&format!("{}: {header}\n", output.display()))
        .map(|()| 0)
        .or_else(on_closed_output)
}

fn join_all(files: &[PathBuf], progress: &Progress) -> Result<(Header, Vec<u8>), Failure> {
    let mut joined = read(&files[0])?;
    let mut answer = None;
    for (number, file) in files.iter().enumerate().skip(1) {
        let next = read(file)?;
        let mut out = vec![0; joined.len() + next.len()];
        let header = bindings::join(&joined, &next, &mut out)
            .map_err(|refusal| Failure::refused(refused_file(files, number, refusal), refusal))?;
        out.truncate(file_bytes(header.items as usize));
        joined = out;
        answer = Some(header);
        progress.show(format_args!("{} of {} files", number + 1, files.len()));
    }
    let header = answer.expect("there are at least two files");
    Ok((header, joined))
}

/// The left side can be refused by itself only while it is the first file:
/// what a join wrote is good.
fn refused_file(files: &[PathBuf], number: usize, refusal: Refusal) -> &Path {
    let is_left = refusal.trace == 1 && refusal.number <= LAST_OF_CHECK;
    &files[if is_left { 0 } else { number }]
}
