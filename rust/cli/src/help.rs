//! The commands and their help.

use crate::failure::Failure;
use std::ffi::OsString;

pub struct Command {
    pub name: &'static str,
    pub help: &'static str,
    pub run: fn(&[OsString]) -> Result<u8, Failure>,
}

pub const COMMANDS: [Command; 5] = [
    Command {
        name: "check",
        help: CHECK,
        run: crate::check::run,
    },
    Command {
        name: "reduce",
        help: REDUCE,
        run: crate::reduce::run,
    },
    Command {
        name: "join",
        help: JOIN,
        run: crate::join::run,
    },
    Command {
        name: "replay",
        help: REPLAY,
        run: crate::replay::run,
    },
    Command {
        name: "convert",
        help: CONVERT,
        run: crate::convert::run,
    },
];

pub const TOOL: &str = "\
shkembruq: checks, reduces, joins and replays page traces

  shkembruq check FILE...
  shkembruq reduce --mode fastslim|demand --filter B IN -o OUT
  shkembruq reduce --mode fastslim|demand --filter B IN... --out-dir DIR
  shkembruq join FIRST SECOND... -o OUT
  shkembruq replay --cache K [--quiet] FILE...
  shkembruq convert [--lackey [--page-bits N]] IN -o OUT

`shkembruq COMMAND --help` says more about one command.

Several files are worked on at once, and the results are printed in the order
of the files. Progress goes to standard error if that is a terminal, or with
--progress. `--` ends the options.

A refused file prints one line on standard error:
  FILE: refused NUMBER trace TRACE item ITEM

Output files are written whole or not at all.

Exit status: 0 if all went well, 1 if a file was refused, 2 for a wrong
command line or a failure to read or write (2 also if both happened).
";

const CHECK: &str = "\
shkembruq check [--progress] FILE...

Checks trace files. Each file taken prints one line on standard output:
  FILE: kind K filter F references R items N
Each file refused prints its refusal line on standard error instead.

  --progress   progress on standard error even if that is no terminal
";

const REDUCE: &str = "\
shkembruq reduce --mode MODE --filter B [--progress] IN -o OUT
shkembruq reduce --mode MODE --filter B [--progress] IN... --out-dir DIR

Reduces whole trace files. A write that is left out makes a write of the last
item of its page that is kept in its epoch, so that a replay still tells which
pages are evicted written. Each file written prints one line:
  OUT: kind K filter B references R items N

  --mode MODE     fastslim or demand
  --filter B      filter size, 1 to 1024
  -o OUT          the file to write, for a single input
  --out-dir DIR   an existing folder; each output takes its input's name
  --progress      progress on standard error even if that is no terminal
";

const JOIN: &str = "\
shkembruq join [--progress] FIRST SECOND... -o OUT

Joins two or more trace files from the left. Prints one line:
  OUT: kind K filter F references R items N
A refusal line names the file that could not be joined on; its trace is 2 if
that file is refused by itself.

  -o OUT       the file to write
  --progress   progress on standard error even if that is no terminal
";

const REPLAY: &str = "\
shkembruq replay --cache K [--quiet] [--progress] FILE...

Replays trace files with an LRU cache of K pages that starts empty. Prints a
line `time page evicted what` for each fetch, with `-` where nothing was
evicted, and as `what` 0 there, 1 for a clean page and 2 for one that was
written since its fetch; then the tally, then the resident pages, most recent
first:
  items N fetches F evictions E permillion P transfers T
  pages P1 P2 ...
The transfers are the fetches and the written pages evicted: what moves between
the cache and the pool. With several files, a line `FILE:` comes before each
file's lines.

  --cache K    cache size, 1 to 4096 and at least the file's filter size
  --quiet      only the tally; with several files as `FILE: items ...`
  --progress   progress on standard error even if that is no terminal
";

const CONVERT: &str = "\
shkembruq convert [--lackey [--page-bits N]] [--progress] IN -o OUT

Writes a recording as a whole trace file. IN is `-` for standard input. Each
line of IN is `page time`, two decimal numbers, for a read, or `page time w`
for a write; blank lines are passed over. Every number of 64 bits is a page;
times never fall.
A recording of over 1,000,000 items is cut into files OUT.0, OUT.1, and so on.
Each file written prints one line:
  OUT: kind 0 filter 0 references R items N

  --lackey        IN is what `valgrind --tool=lackey --trace-mem=yes` wrote;
                  each access is one item, a modify (M) too, its time the
                  running number of the access from 0; a store (S) and a
                  modify are writes, an instruction (I) and a load (L) reads;
                  lines that start with ==, -- or ** are passed over
  --page-bits N   a page is an address without its low N bits; 0 to 63,
                  12 if not given
  -o OUT          the file to write
  --progress      progress on standard error even if that is no terminal
";
