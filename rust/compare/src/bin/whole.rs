//! whole CACHE FILE...
//!
//! Runs LRU over the items of all files of a recording, in their order, from
//! an empty cache, and prints what `shkembruq replay` would if one file could
//! hold them. Only the reference is used: this is the other side of a
//! comparison (examples/real.sh).

use reference::{Run, check, items, run};
use std::env;
use std::fmt::Write as _;
use std::fs;
use std::io::{self, Write as _};
use std::process::ExitCode;
use types::event::{NOTHING, transfers};
use types::limits::LARGEST_CACHE;
use types::{Item, NUMBERS_PER_EVENT};

fn main() -> ExitCode {
    let arguments: Vec<String> = env::args().skip(1).collect();
    let printed = text(&arguments).and_then(|text| {
        let written = io::stdout().write_all(text.as_bytes());
        written.map_err(|error| format!("standard output: {error}"))
    });
    match printed {
        Ok(()) => ExitCode::SUCCESS,
        Err(message) => {
            eprintln!("whole: {message}");
            ExitCode::FAILURE
        }
    }
}

fn text(arguments: &[String]) -> Result<String, String> {
    let [cache, files @ ..] = arguments else {
        return Err("give a cache size and the files of a recording".to_string());
    };
    let size = cache.parse().ok().filter(|size| *size >= 1);
    let size = size.filter(|size| *size <= LARGEST_CACHE as usize);
    let size = size.ok_or_else(|| format!("no cache has {cache} pages"))?;
    if files.is_empty() {
        return Err("give the files of a recording".to_string());
    }
    let mut recording: Vec<Item> = Vec::new();
    for path in files {
        append(&mut recording, path).map_err(|reason| format!("{path}: {reason}"))?;
    }
    Ok(lines(&run(recording, size, &[])))
}

/// Takes over the items of a file that is whole and goes on where the one
/// before ended.
fn append(recording: &mut Vec<Item>, path: &str) -> Result<(), String> {
    let file = fs::read(path).map_err(|error| error.to_string())?;
    let header = check(&file).map_err(|refusal| refusal.to_string())?;
    if header.kind != 0 {
        return Err(format!("is of kind {} and not whole", header.kind));
    }
    let end = recording.last().map_or(0, |item| item.time);
    if items(&file).next().is_some_and(|item| item.time < end) {
        return Err(format!("starts before time {end}"));
    }
    recording.extend(items(&file));
    Ok(())
}

fn lines(run: &Run) -> String {
    let mut text = String::new();
    for [time, page, evicted, what] in run.events.as_chunks::<NUMBERS_PER_EVENT>().0 {
        let evicted = match *what {
            NOTHING => "-".to_string(),
            _ => evicted.to_string(),
        };
        let _ = writeln!(text, "{time} {page} {evicted} {what}");
    }
    let transfers = transfers(&run.events);
    let _ = write!(text, "{} transfers {transfers}\npages", run.summary);
    for frame in &run.frames {
        let _ = write!(text, " {}", frame.page);
    }
    text.push('\n');
    text
}
