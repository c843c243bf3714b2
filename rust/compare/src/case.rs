//! A call as data: what is handed over, lent buffers with all they hold.

use crate::margins::with_margins;
use std::fmt;
use types::{Frame, Header, Library, Refusal, Summary};

#[derive(Clone)]
pub enum Case {
    Check {
        file: Vec<u8>,
    },
    Reduce {
        file: Vec<u8>,
        mode: u64,
        filter: u64,
        out: Vec<u8>,
    },
    Join {
        first: Vec<u8>,
        second: Vec<u8>,
        out: Vec<u8>,
    },
    Replay {
        file: Vec<u8>,
        size: u64,
        cache: Vec<Frame>,
        resident: usize,
        events: Vec<u64>,
    },
}

#[derive(Clone, Debug, PartialEq, Eq)]
pub enum Answer {
    Header(Result<Header, Refusal>),
    Summary(Result<Summary, (Refusal, u64)>),
}

impl Answer {
    pub fn refusal(&self) -> Option<Refusal> {
        match self {
            Answer::Header(answer) => answer.err(),
            Answer::Summary(answer) => answer.err().map(|(refusal, _)| refusal),
        }
    }
}

impl Case {
    /// Makes the call. The case then holds what the call left in the buffers.
    pub fn run(&mut self, library: &dyn Library) -> Answer {
        match self {
            Case::Check { file } => Answer::Header(library.check(file)),
            Case::Reduce {
                file,
                mode,
                filter,
                out,
            } => Answer::Header(with_margins(out, |out| {
                library.reduce(file, *mode, *filter, out)
            })),
            Case::Join { first, second, out } => {
                Answer::Header(with_margins(out, |out| library.join(first, second, out)))
            }
            Case::Replay {
                file,
                size,
                cache,
                resident,
                events,
            } => Answer::Summary(with_margins(cache, |cache| {
                with_margins(events, |events| {
                    library.replay(file, *size, cache, *resident, events)
                })
            })),
        }
    }

    /// The files lent for reading.
    pub fn inputs(&self) -> [&[u8]; 2] {
        match self {
            Case::Check { file } | Case::Reduce { file, .. } | Case::Replay { file, .. } => {
                [file, &[]]
            }
            Case::Join { first, second, .. } => [first, second],
        }
    }

    /// The buffers lent for writing: bytes, then cache, then events.
    pub fn outputs(&self) -> (&[u8], &[Frame], &[u64]) {
        match self {
            Case::Check { .. } => (&[], &[], &[]),
            Case::Reduce { out, .. } | Case::Join { out, .. } => (out, &[], &[]),
            Case::Replay { cache, events, .. } => (&[], cache, events),
        }
    }
}

/// Short enough for a message: long rows are shown by their start.
impl fmt::Debug for Case {
    fn fmt(&self, f: &mut fmt::Formatter<'_>) -> fmt::Result {
        match self {
            Case::Check { file } => write!(f, "check of {}", Row(file)),
            Case::Reduce {
                file,
                mode,
                filter,
                out,
            } => write!(
                f,
                "reduce of {} mode {mode} filter {filter} room {}",
                Row(file),
                out.len()
            ),
            Case::Join { first, second, out } => write!(
                f,
                "join of {} and {} room {}",
                Row(first),
                Row(second),
                out.len()
            ),
            Case::Replay {
                file,
                size,
                cache,
                resident,
                events,
            } => write!(
                f,
                "replay of {} size {size} cache {} resident {resident} room {}",
                Row(file),
                Row(cache),
                events.len()
            ),
        }
    }
}

struct Row<'a, T>(&'a [T]);

const SHOWN: usize = 200;

impl<T: fmt::Debug> fmt::Display for Row<'_, T> {
    fn fmt(&self, f: &mut fmt::Formatter<'_>) -> fmt::Result {
        let start = &self.0[..self.0.len().min(SHOWN)];
        write!(f, "{} places {start:?}", self.0.len())
    }
}
