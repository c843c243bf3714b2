//! shkembruq check

use crate::arguments::{Known, parse};
use crate::failure::Failure;
use crate::input::read;
use crate::progress::Progress;
use crate::results::for_each;
use std::ffi::OsString;
use std::path::Path;

const KNOWN: Known = Known {
    valued: &[],
    flags: &["--progress"],
};

pub fn run(arguments: &[OsString]) -> Result<u8, Failure> {
    let arguments = parse(arguments, &KNOWN)?;
    let files = arguments.at_least(1)?;
    let progress = Progress::new(arguments.has("--progress"));
    for_each(files, &progress, |number| check_one(&files[number]))
}

fn check_one(file: &Path) -> Result<String, Failure> {
    let header =
        bindings::check(&read(file)?).map_err(|refusal| Failure::refused(file, refusal))?;
    Ok(format!("{}: {header}\n", file.display()))
}
