//! Writes files whole or not at all: first a temporary file in the same
//! folder, brought to the disk, then one rename.

use crate::failure::Failure;
use std::ffi::OsString;
use std::fs::{self, File};
use std::io::{self, Write};
use std::path::{Path, PathBuf};
use std::process;
use std::sync::atomic::{AtomicU64, Ordering};

/// A file written under a temporary name. Dropped before it is placed, it
/// goes away again.
pub struct Staged {
    temporary: PathBuf,
    target: PathBuf,
}

impl Staged {
    pub fn write(target: &Path, bytes: &[u8]) -> Result<Self, Failure> {
        refuse_to_replace(target)?;
        let broken = |error| Failure::broken(target.display(), error);
        let temporary = temporary_name(target);
        let file = File::create_new(&temporary).map_err(broken)?;
        let staged = Staged {
            temporary,
            target: target.to_path_buf(),
        };
        fill(file, bytes).map_err(broken)?;
        Ok(staged)
    }

    pub fn target(&self) -> &Path {
        &self.target
    }
}

impl Drop for Staged {
    /// After a rename the temporary name is gone and nothing is removed.
    fn drop(&mut self) {
        let _ = fs::remove_file(&self.temporary);
    }
}

/// Gives all files their names, or none: a failure takes back those placed.
pub fn place_all(staged: &[Staged]) -> Result<(), Failure> {
    for (number, file) in staged.iter().enumerate() {
        if let Err(error) = fs::rename(&file.temporary, &file.target) {
            take_back(&staged[..number]);
            return Err(Failure::broken(file.target.display(), error));
        }
    }
    // The new names are safe only once their folder is on the disk too.
    staged.iter().try_for_each(|file| {
        let folder = folder(&file.target);
        File::open(folder)
            .and_then(|folder| folder.sync_all())
            .map_err(|error| {
                take_back(staged);
                Failure::broken(folder.display(), error)
            })
    })
}

fn take_back(placed: &[Staged]) {
    for file in placed {
        let _ = fs::remove_file(&file.target);
    }
}

pub fn write_whole(target: &Path, bytes: &[u8]) -> Result<(), Failure> {
    place_all(&[Staged::write(target, bytes)?])
}

fn fill(mut file: File, bytes: &[u8]) -> io::Result<()> {
    file.write_all(bytes)?;
    file.sync_all()
}

/// A rename would put a plain file in the place of a device or a pipe.
fn refuse_to_replace(target: &Path) -> Result<(), Failure> {
    match fs::metadata(target) {
        Ok(there) if !there.is_file() => {
            Err(Failure::broken(target.display(), "not a regular file"))
        }
        _ => Ok(()),
    }
}

/// A hidden name beside the target that no other run or thread takes.
fn temporary_name(target: &Path) -> PathBuf {
    static NEXT: AtomicU64 = AtomicU64::new(0);
    let number = NEXT.fetch_add(1, Ordering::Relaxed);
    let mut name = OsString::from(".");
    name.push(target.file_name().unwrap_or_default());
    name.push(format!(".{}.{number}.tmp", process::id()));
    target.with_file_name(name)
}

fn folder(target: &Path) -> &Path {
    match target.parent() {
        Some(parent) if !parent.as_os_str().is_empty() => parent,
        _ => Path::new("."),
    }
}
