//! The program `whole`, on the paper's trace T in one file and in several.

use std::env;
use std::fs;
use std::path::PathBuf;
use std::process::{Command, Output, id};
use types::layout::{encode, whole};
use types::{Header, Item};

const LINES: &str = "\
10 1 - 0
40 2 - 0
60 3 2 1
80 4 1 2
110 1 4 1
items 12 fetches 5 evictions 3 permillion 416666 transfers 6
pages 1 3
";

/// Its second item and its seventh, of pages 1 and 3, are writes.
fn t() -> Vec<Item> {
    let pages = [1, 1, 1, 2, 1, 3, 3, 4, 3, 3, 1, 1];
    let item = |(page, number): (u64, u64)| Item {
        page,
        time: 10 * number,
        written: [2, 7].contains(&number),
    };
    pages.into_iter().zip(1..).map(item).collect()
}

/// Runs `whole` with a cache size and files that hold these bytes.
fn run(name: &str, cache: &str, files: &[Vec<u8>]) -> Output {
    let folder = env::temp_dir().join(format!("whole-{name}-{}", id()));
    fs::create_dir_all(&folder).expect("a folder");
    let write = |(number, bytes): (usize, &Vec<u8>)| {
        let path = folder.join(number.to_string());
        fs::write(&path, bytes).expect("written");
        path
    };
    let paths: Vec<PathBuf> = files.iter().enumerate().map(write).collect();
    let mut command = Command::new(env!("CARGO_BIN_EXE_whole"));
    let output = command.arg(cache).args(paths).output().expect("run");
    fs::remove_dir_all(folder).expect("removed");
    output
}

#[test]
fn t_in_one_file_and_in_several() {
    let t = t();
    let files = [
        vec![whole(&t)],
        vec![whole(&t[..7]), whole(&t[7..])],
        vec![whole(&[]), whole(&t[..1]), whole(&[]), whole(&t[1..])],
    ];
    for files in files {
        let output = run("t", "2", &files);
        assert!(output.status.success());
        assert_eq!(String::from_utf8_lossy(&output.stdout), LINES);
    }
}

/// Page 0 and the last: a dash stands where nothing was evicted, which the
/// fourth number says.
#[test]
fn the_first_page_and_the_last() {
    let pages = [u64::MAX, 0, u64::MAX, 5];
    let item = |(page, time): (u64, u64)| Item::write(page, time);
    let items: Vec<Item> = pages.into_iter().zip(1..).map(item).collect();
    let output = run("ends", "1", &[whole(&items[..2]), whole(&items[2..])]);
    let lines = "\
1 18446744073709551615 - 0
2 0 18446744073709551615 2
3 18446744073709551615 0 2
4 5 18446744073709551615 2
items 4 fetches 4 evictions 3 permillion 1000000 transfers 7
pages 5
";
    assert_eq!(String::from_utf8_lossy(&output.stdout), lines);
}

#[test]
fn an_empty_recording() {
    let output = run("empty", "7", &[whole(&[])]);
    let lines = "items 0 fetches 0 evictions 0 permillion 0 transfers 0\npages\n";
    assert_eq!(String::from_utf8_lossy(&output.stdout), lines);
}

#[test]
fn what_is_no_recording_fails() {
    let t = t();
    let header = Header {
        kind: 1,
        filter: 2,
        references: 12,
        items: 12,
    };
    let in_order = [whole(&t[..7]), whole(&t[7..])];
    let out_of_order = [whole(&t[7..]), whole(&t[..7])];
    for (cache, files) in [
        ("0", &in_order[..]),
        ("4097", &in_order),
        ("two", &in_order),
        ("2", &[]),
        ("2", &out_of_order),
        ("2", &[encode(&header, &t)]),
        ("2", &[vec![1, 2, 3]]),
    ] {
        let output = run("wrong", cache, files);
        assert!(!output.status.success() && output.stdout.is_empty());
        assert!(output.stderr.starts_with(b"whole: "));
    }
}
