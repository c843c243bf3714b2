//! What can go wrong, with the exit status of each.

use std::fmt;
use std::path::Path;
use types::Refusal;

#[derive(Debug)]
pub enum Failure {
    /// The library refused: status 1.
    Refused(String),
    /// The command line cannot be followed: status 2.
    Usage(String),
    /// Reading or writing failed, or the input is no recording: status 2.
    Broken(String),
}

impl Failure {
    pub fn refused(file: &Path, refusal: Refusal) -> Self {
        Failure::Refused(format!("{}: {refusal}", file.display()))
    }

    pub fn usage(reason: impl Into<String>) -> Self {
        Failure::Usage(reason.into())
    }

    pub fn broken(what: impl fmt::Display, reason: impl fmt::Display) -> Self {
        Failure::Broken(format!("{what}: {reason}"))
    }

    pub fn status(&self) -> u8 {
        match self {
            Failure::Refused(_) => 1,
            Failure::Usage(_) | Failure::Broken(_) => 2,
        }
    }

    /// A usage error says where its help is.
    pub fn in_command(self, name: &str) -> Self {
        match self {
            Failure::Usage(reason) => {
                Failure::Usage(format!("{reason}; see `shkembruq {name} --help`"))
            }
            other => other,
        }
    }
}

/// A refusal line stands alone, as its format is fixed; the other messages
/// say who speaks.
impl fmt::Display for Failure {
    fn fmt(&self, f: &mut fmt::Formatter<'_>) -> fmt::Result {
        match self {
            Failure::Refused(line) => write!(f, "{line}"),
            Failure::Usage(reason) | Failure::Broken(reason) => write!(f, "shkembruq: {reason}"),
        }
    }
}
