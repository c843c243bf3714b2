//! A folder of its own for each test, and the built program run inside it.

// Each test file uses its own share of these.
#![allow(dead_code)]

use std::fs;
use std::path::{Path, PathBuf};
use std::process::{Command, Stdio};
use types::Item;
use types::layout::whole;

pub struct Desk(PathBuf);

pub struct Ended {
    pub status: i32,
    pub out: String,
    pub err: String,
}

/// A test that passed leaves nothing: the gate refuses the links that some make,
/// wherever in the repository they lie.
impl Drop for Desk {
    fn drop(&mut self) {
        let _ = fs::remove_dir_all(&self.0);
    }
}

impl Desk {
    /// A fresh folder; the test's name keeps tests apart.
    pub fn new(name: &str) -> Self {
        let folder = Path::new(env!("CARGO_TARGET_TMPDIR")).join(name);
        let _ = fs::remove_dir_all(&folder);
        fs::create_dir_all(&folder).unwrap();
        Desk(folder)
    }

    pub fn put(&self, name: &str, bytes: &[u8]) {
        fs::write(self.0.join(name), bytes).unwrap();
    }

    pub fn get(&self, name: &str) -> Vec<u8> {
        fs::read(self.0.join(name)).unwrap()
    }

    pub fn folder(&self, name: &str) {
        fs::create_dir(self.0.join(name)).unwrap();
    }

    pub fn path(&self, name: &str) -> PathBuf {
        self.0.join(name)
    }

    /// All names in the folder, sorted: nothing may be left behind.
    pub fn names(&self) -> Vec<String> {
        let mut names: Vec<_> = fs::read_dir(&self.0)
            .unwrap()
            .map(|entry| entry.unwrap().file_name().into_string().unwrap())
            .collect();
        names.sort();
        names
    }

    pub fn run(&self, words: &str) -> Ended {
        self.run_with(words, Stdio::null())
    }

    pub fn run_with(&self, words: &str, input: Stdio) -> Ended {
        let mut command = Command::new(env!("CARGO_BIN_EXE_shkembruq"));
        self.end(command.args(words.split_whitespace()).stdin(input))
    }

    /// Runs where no file can grow beyond one block.
    pub fn run_short_of_room(&self, words: &str) -> Ended {
        let mut command = Command::new("sh");
        command
            .args(["-c", "trap '' XFSZ; ulimit -f 1; exec \"$0\" \"$@\""])
            .arg(env!("CARGO_BIN_EXE_shkembruq"))
            .args(words.split_whitespace());
        self.end(&mut command)
    }

    fn end(&self, command: &mut Command) -> Ended {
        let output = command.current_dir(&self.0).output().unwrap();
        Ended {
            status: output.status.code().unwrap(),
            out: String::from_utf8(output.stdout).unwrap(),
            err: String::from_utf8(output.stderr).unwrap(),
        }
    }
}

impl Ended {
    /// Status, standard output and standard error at once.
    pub fn is(&self, status: i32, out: &str, err: &str) {
        assert_eq!(
            (self.status, self.out.as_str(), self.err.as_str()),
            (status, out, err)
        );
    }

    /// Status 2, nothing on standard output, a message with this in it.
    pub fn is_broken(&self, part: &str) {
        assert_eq!((self.status, self.out.as_str()), (2, ""), "{}", self.err);
        assert!(self.err.contains(part), "{}", self.err);
        assert!(self.err.starts_with("shkembruq: "), "{}", self.err);
    }
}

/// Trace T of the paper. Nothing in it is written.
pub fn t() -> Vec<Item> {
    let pages = [1, 1, 1, 2, 1, 3, 3, 4, 3, 3, 1, 1];
    let item = |(&page, time): (&u64, u64)| Item::read(page, time);
    pages.iter().zip((10..).step_by(10)).map(item).collect()
}

pub fn t_file() -> Vec<u8> {
    whole(&t())
}

pub const T_REPLAYED: &str = "\
10 1 - 0
40 2 - 0
60 3 2 1
80 4 1 1
110 1 4 1
items 12 fetches 5 evictions 3 permillion 416666 transfers 5
pages 1 3
";
