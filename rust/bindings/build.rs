//! Finds the archive of the proved library and has it linked.

use std::env;
use std::path::{Path, PathBuf};

const OVERRIDE: &str = "SHKEMBRUQ_ARCHIVE";
/// As `rust/archive` writes it; the kit compiles for x86-64 alone.
const IN_REPOSITORY: &str = "../../target/staticlib/libabi.a";

fn main() {
    println!("cargo::rerun-if-env-changed={OVERRIDE}");
    println!("cargo::rerun-if-changed=build.rs");
    let archive = archive();
    // Watched even while it is missing, so that its arrival starts a build.
    println!("cargo::rerun-if-changed={}", archive.display());
    match archive.canonicalize() {
        Ok(found) if found.is_file() => link(&found),
        _ => println!(
            "cargo::error=no archive at {}: run `rust/archive` first, or set {OVERRIDE} to its path",
            archive.display()
        ),
    }
}

fn archive() -> PathBuf {
    match env::var_os(OVERRIDE) {
        Some(path) => PathBuf::from(path),
        None => {
            let package = env::var_os("CARGO_MANIFEST_DIR").expect("cargo sets the package folder");
            Path::new(&package).join(IN_REPOSITORY)
        }
    }
}

/// The name is passed as it is, so that an override may have any name.
fn link(archive: &Path) {
    let folder = archive.parent().expect("a file stands in a folder");
    let name = archive.file_name().expect("a file has a name");
    println!("cargo::rustc-link-search=native={}", folder.display());
    println!("cargo::rustc-link-lib=static:+verbatim={}", name.display());
}
