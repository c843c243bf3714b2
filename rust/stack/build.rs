//! Compiles the library that is loaded into a program to measure its stack.
//! Cargo has no way to say that a program loads a library while it runs.
//! The programs are for x86-64, so on another machine there is none to load.

use std::env;
use std::path::PathBuf;
use std::process::Command;

const SOURCE: &str = "preload/start.rs";

fn main() {
    println!("cargo::rerun-if-changed={SOURCE}");
    println!("cargo::rerun-if-changed=src/painted.rs");
    if set("CARGO_CFG_TARGET_ARCH") != "x86_64" {
        return;
    }
    let library = PathBuf::from(set("OUT_DIR")).join("libstart.so");
    let compiled = Command::new(set("RUSTC"))
        .args(["--edition=2024", "--crate-type=cdylib", "-Copt-level=2"])
        .arg("-o")
        .arg(&library)
        .arg(SOURCE)
        .status();
    match compiled {
        Ok(status) if status.success() => {
            println!("cargo::rustc-env=PRELOADED={}", library.display());
        }
        Ok(status) => println!("cargo::error={SOURCE} is not compiled: {status}"),
        Err(error) => println!("cargo::error=the compiler is not run: {error}"),
    }
}

fn set(name: &str) -> String {
    env::var(name).expect("cargo sets it for a build script")
}
