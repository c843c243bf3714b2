//! shkembruq reduce

use crate::arguments::{Arguments, Known, parse};
use crate::failure::Failure;
use crate::input::read;
use crate::output::write_whole;
use crate::places::{in_folder, keep_apart};
use crate::progress::Progress;
use crate::results::for_each;
use std::ffi::OsString;
use std::path::{Path, PathBuf};
use types::layout::file_bytes;

const KNOWN: Known = Known {
    valued: &["--mode", "--filter", "-o", "--out-dir"],
    flags: &["--progress"],
};

pub fn run(arguments: &[OsString]) -> Result<u8, Failure> {
    let arguments = parse(arguments, &KNOWN)?;
    let mode = mode(&arguments)?;
    let filter = arguments.number("--filter")?;
    let inputs = arguments.at_least(1)?;
    let outputs = outputs(&arguments, inputs)?;
    let progress = Progress::new(arguments.has("--progress"));
    for_each(inputs, &progress, |number| {
        reduce_one(&inputs[number], mode, filter, &outputs[number])
    })
}

/// The mode is the kind of file it writes.
fn mode(arguments: &Arguments) -> Result<u64, Failure> {
    let mode = arguments.required("--mode")?.to_string_lossy();
    match mode.as_ref() {
        "fastslim" => Ok(1),
        "demand" => Ok(2),
        _ => Err(Failure::usage(format!(
            "--mode is fastslim or demand, not `{mode}`"
        ))),
    }
}

fn outputs(arguments: &Arguments, inputs: &[PathBuf]) -> Result<Vec<PathBuf>, Failure> {
    match (arguments.value("-o"), arguments.value("--out-dir")) {
        (Some(_), None) if inputs.len() > 1 => {
            Err(Failure::usage("-o takes one input; several need --out-dir"))
        }
        (Some(output), None) => {
            keep_apart(inputs, Path::new(output))?;
            Ok(vec![PathBuf::from(output)])
        }
        (None, Some(folder)) => in_folder(inputs, Path::new(folder)),
        _ => Err(Failure::usage("give either -o or --out-dir")),
    }
}

fn reduce_one(input: &Path, mode: u64, filter: u64, output: &Path) -> Result<String, Failure> {
    let file = read(input)?;
    let mut out = vec![0; file.len()];
    let header = bindings::reduce(&file, mode, filter, &mut out)
        .map_err(|refusal| Failure::refused(input, refusal))?;
    write_whole(output, &out[..file_bytes(header.items as usize)])?;
    Ok(format!("{}: {header}\n", output.display()))
}
