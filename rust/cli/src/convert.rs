//! shkembruq convert

use crate::arguments::{Arguments, Known, parse};
use crate::failure::Failure;
use crate::output::{Staged, place_all};
use crate::places::keep_apart;
use crate::progress::Progress;
use crate::recording::{Format, Reader};
use crate::results::{on_closed_output, print};
use std::ffi::OsString;
use std::fs::File;
use std::io::{self, BufRead, BufReader};
use std::path::{Path, PathBuf};
use types::layout::whole;
use types::limits::MOST_ITEMS;
use types::{Header, Item};

const KNOWN: Known = Known {
    valued: &["-o", "--page-bits"],
    flags: &["--lackey", "--progress"],
};

const USUAL_PAGE_BITS: u64 = 12;

pub fn run(arguments: &[OsString]) -> Result<u8, Failure> {
    let arguments = parse(arguments, &KNOWN)?;
    let format = format(&arguments)?;
    let output = PathBuf::from(arguments.required("-o")?);
    let inputs = arguments.at_least(1)?;
    let [input] = inputs else {
        return Err(Failure::usage("convert takes one input"));
    };
    keep_apart(inputs, &output)?;
    let progress = Progress::new(arguments.has("--progress"));
    let mut cutter = Cutter::new(input.clone(), output, progress);
    read_lines(input, format, &mut cutter)?;
    let lines = cutter.finish()?;
    print(&lines).map(|()| 0).or_else(on_closed_output)
}

fn format(arguments: &Arguments) -> Result<Format, Failure> {
    let page_bits = match arguments.value("--page-bits") {
        Some(_) if !arguments.has("--lackey") => {
            return Err(Failure::usage("--page-bits goes with --lackey"));
        }
        Some(_) => arguments.number("--page-bits")?,
        None => USUAL_PAGE_BITS,
    };
    match arguments.has("--lackey") {
        false => Ok(Format::Plain),
        true if page_bits < 64 => Ok(Format::Lackey {
            page_bits: page_bits as u32,
        }),
        true => Err(Failure::usage("--page-bits is 0 to 63")),
    }
}

fn read_lines(input: &Path, format: Format, cutter: &mut Cutter) -> Result<(), Failure> {
    let broken = |error| Failure::broken(input.display(), error);
    let mut source: Box<dyn BufRead> = match input == Path::new("-") {
        true => Box::new(io::stdin().lock()),
        false => Box::new(BufReader::new(File::open(input).map_err(broken)?)),
    };
    let (mut reader, mut line) = (Reader::new(format), Vec::new());
    for number in 1_u64.. {
        line.clear();
        if source.read_until(b'\n', &mut line).map_err(broken)? == 0 {
            break;
        }
        let item = reader.line(&line).map_err(|reason| {
            Failure::broken(input.display(), format!("line {number}: {reason}"))
        })?;
        if let Some(item) = item {
            cutter.push(item)?;
        }
    }
    Ok(())
}

/// Gathers items and cuts them into files. The files get their names only at
/// the end, so that a fault late in a recording leaves nothing behind.
struct Cutter {
    input: PathBuf,
    output: PathBuf,
    progress: Progress,
    items: Vec<Item>,
    files: Vec<(Staged, Header)>,
}

impl Cutter {
    fn new(input: PathBuf, output: PathBuf, progress: Progress) -> Self {
        Cutter {
            input,
            output,
            progress,
            items: Vec::new(),
            files: Vec::new(),
        }
    }

    fn push(&mut self, item: Item) -> Result<(), Failure> {
        // A full file is cut off only now that it is known not to be the last.
        if self.items.len() as u64 == MOST_ITEMS {
            self.stage(self.numbered())?;
        }
        self.items.push(item);
        Ok(())
    }

    fn numbered(&self) -> PathBuf {
        let mut name = self.output.clone().into_os_string();
        name.push(format!(".{}", self.files.len()));
        PathBuf::from(name)
    }

    fn stage(&mut self, target: PathBuf) -> Result<(), Failure> {
        keep_apart(std::slice::from_ref(&self.input), &target)?;
        let file = whole(&self.items);
        self.items.clear();
        let header =
            bindings::check(&file).map_err(|refusal| Failure::refused(&target, refusal))?;
        self.files.push((Staged::write(&target, &file)?, header));
        self.progress
            .show(format_args!("{} files read", self.files.len()));
        Ok(())
    }

    /// Places all files; answers the lines to print.
    fn finish(mut self) -> Result<String, Failure> {
        let target = match self.files.is_empty() {
            true => self.output.clone(),
            false => self.numbered(),
        };
        self.stage(target)?;
        self.progress.clear();
        let (staged, headers): (Vec<_>, Vec<_>) = self.files.into_iter().unzip();
        place_all(&staged)?;
        let line =
            |(file, header): (&Staged, &Header)| format!("{}: {header}\n", file.target().display());
        Ok(staged.iter().zip(&headers).map(line).collect())
    }
}
