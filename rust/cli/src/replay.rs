//! shkembruq replay

use crate::arguments::{Known, parse};
use crate::failure::Failure;
use crate::input::read;
use crate::progress::Progress;
use crate::results::for_each;
use std::ffi::OsString;
use std::fmt::Write;
use std::path::Path;
use types::event::{NOTHING, transfers};
use types::layout::{HEADER_BYTES, ITEM_BYTES};
use types::limits::LARGEST_CACHE;
use types::{Frame, NUMBERS_PER_EVENT, Summary};

const KNOWN: Known = Known {
    valued: &["--cache"],
    flags: &["--quiet", "--progress"],
};

/// How one file's result is printed.
#[derive(Clone, Copy)]
struct Style {
    quiet: bool,
    named: bool,
}

pub fn run(arguments: &[OsString]) -> Result<u8, Failure> {
    let arguments = parse(arguments, &KNOWN)?;
    let size = arguments.number("--cache")?;
    let files = arguments.at_least(1)?;
    let style = Style {
        quiet: arguments.has("--quiet"),
        named: files.len() > 1,
    };
    let progress = Progress::new(arguments.has("--progress"));
    for_each(files, &progress, |number| {
        replay_one(&files[number], size, style)
    })
}

fn replay_one(path: &Path, size: u64, style: Style) -> Result<String, Failure> {
    let file = read(path)?;
    // A size over the largest is refused before the buffer is looked at.
    let mut cache = vec![Frame::clean(0); size.min(LARGEST_CACHE) as usize];
    let items = file.len().saturating_sub(HEADER_BYTES) / ITEM_BYTES;
    let mut events = vec![0; NUMBERS_PER_EVENT * items];
    let summary = bindings::replay(&file, size, &mut cache, 0, &mut events)
        .map_err(|(refusal, _)| Failure::refused(path, refusal))?;
    let fetches = &events[..NUMBERS_PER_EVENT * summary.fetches as usize];
    let left = &cache[..summary.resident as usize];
    Ok(report(path, style, fetches, &summary, left))
}

fn report(path: &Path, style: Style, fetches: &[u64], summary: &Summary, left: &[Frame]) -> String {
    let tally = format!("{summary} transfers {}", transfers(fetches));
    match (style.quiet, style.named) {
        (true, true) => return format!("{}: {tally}\n", path.display()),
        (true, false) => return format!("{tally}\n"),
        (false, _) => {}
    }
    let mut text = String::new();
    if style.named {
        line(&mut text, format_args!("{}:", path.display()));
    }
    let (fetches, _) = fetches.as_chunks::<NUMBERS_PER_EVENT>();
    for [time, page, evicted, what] in fetches {
        match *what {
            NOTHING => line(&mut text, format_args!("{time} {page} - {what}")),
            _ => line(&mut text, format_args!("{time} {page} {evicted} {what}")),
        }
    }
    line(&mut text, format_args!("{tally}"));
    text.push_str("pages");
    for frame in left {
        write!(text, " {}", frame.page).expect("a string takes all text");
    }
    text.push('\n');
    text
}

fn line(text: &mut String, content: std::fmt::Arguments<'_>) {
    writeln!(text, "{content}").expect("a string takes all text");
}
