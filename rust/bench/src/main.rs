//! Times the proved library against the reference on full-size files.

mod arguments;
mod growth;
mod hostile;
mod hostile_traces;
mod job;
mod reduce;
mod replay;
mod std_hash;
mod table;
mod timing;
mod traces;

use arguments::{Part, Wanted};
use std::process::ExitCode;

const USAGE: &str = "\
bench [PART]... [--quick]

Times the proved library against the reference, both optimised, on traces of
1,000,000 items where no other number is told. Each figure is the median of
several rounds in which the libraries take turns. Without a part, all of them.

  reduce    check, join and reduce on three traces, each once without writes
            and once with three writes in ten
  replay    replay on the same traces with caches of 1 to 4,096 pages; also
            against the reference with the hash of Rust's standard library
  growth    replay as the cache grows, on loops of hits alone and of fetches
            alone, and as the trace grows; and what a call costs at least
  hostile   reductions and replays of traces whose pages share a bucket: the
            proved library alone, to be compared with another archive
            (SHKEMBRUQ_ARCHIVE)
  --quick   fewer rounds
";

const ROUNDS: usize = 7;
const QUICK_ROUNDS: usize = 3;

fn main() -> ExitCode {
    let words: Vec<String> = std::env::args().skip(1).collect();
    if let ["--help" | "-h"] = words.iter().map(String::as_str).collect::<Vec<_>>()[..] {
        print!("{USAGE}");
        return ExitCode::SUCCESS;
    }
    let Some(wanted) = Wanted::read(&words) else {
        eprint!("{USAGE}");
        return ExitCode::from(2);
    };
    let rounds = if wanted.quick { QUICK_ROUNDS } else { ROUNDS };
    for (number, part) in wanted.parts.iter().enumerate() {
        if number > 0 {
            println!();
        }
        run(*part, rounds);
    }
    ExitCode::SUCCESS
}

fn run(part: Part, rounds: usize) {
    match part {
        Part::Reduce => reduce::run(rounds),
        Part::Replay => replay::run(rounds),
        Part::Growth => growth::run(rounds),
        Part::Hostile => hostile::run(),
    }
}
