//! Reads trace files.

use crate::failure::Failure;
use std::fs::File;
use std::io::Read;
use std::path::Path;
use types::layout::file_bytes;
use types::limits::MOST_ITEMS;

/// Reads a file, or as much of it as the library's answer can depend on.
///
/// One byte over the longest file is enough: the header decides refusals 1
/// and 2, and for any good header that length is as wrong as a longer one.
/// So a huge file that is no trace does not have to fit into memory.
pub fn read(path: &Path) -> Result<Vec<u8>, Failure> {
    let most = file_bytes(MOST_ITEMS as usize) as u64 + 1;
    let broken = |error| Failure::broken(path.display(), error);
    let file = File::open(path).map_err(broken)?;
    let expected = file.metadata().map_err(broken)?.len().min(most);
    let mut bytes = Vec::with_capacity(expected as usize + 1);
    file.take(most).read_to_end(&mut bytes).map_err(broken)?;
    Ok(bytes)
}
