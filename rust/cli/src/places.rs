//! Makes sure that no output takes the place of an input.

use crate::failure::Failure;
use std::collections::HashSet;
use std::fs;
use std::path::{Path, PathBuf};

/// Refuses an output that is one of the inputs, by whatever name.
pub fn keep_apart(inputs: &[PathBuf], output: &Path) -> Result<(), Failure> {
    let Ok(there) = fs::canonicalize(output) else {
        // What does not exist is no input.
        return Ok(());
    };
    let is_input = inputs
        .iter()
        .any(|input| fs::canonicalize(input).is_ok_and(|input| input == there));
    match is_input {
        true => Err(Failure::broken(
            output.display(),
            "is an input as well; nothing was written",
        )),
        false => Ok(()),
    }
}

/// The output of each input in a folder: the same name.
pub fn in_folder(inputs: &[PathBuf], folder: &Path) -> Result<Vec<PathBuf>, Failure> {
    if !folder.is_dir() {
        return Err(Failure::broken(folder.display(), "no such folder"));
    }
    let mut taken = HashSet::new();
    let mut outputs = Vec::new();
    for input in inputs {
        let name = input
            .file_name()
            .ok_or_else(|| Failure::broken(input.display(), "has no file name"))?;
        if !taken.insert(name) {
            let reason = format!("two inputs are called {}", name.display());
            return Err(Failure::usage(reason));
        }
        let output = folder.join(name);
        keep_apart(inputs, &output)?;
        outputs.push(output);
    }
    Ok(outputs)
}
