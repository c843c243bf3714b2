//! The answers of the four functions. Numbers are kept as 64 bits throughout,
//! as the archive hands them over, so that an answer outside the rules would
//! show up in a comparison instead of being cut to fit.

use std::fmt;

/// The four header values of a file checked or written.
#[derive(Clone, Copy, Debug, PartialEq, Eq)]
pub struct Header {
    pub kind: u64,
    pub filter: u64,
    pub references: u64,
    pub items: u64,
}

/// Why a call was refused: the number of the table, the trace (1 or 2) and
/// the item, counted from 0.
#[derive(Clone, Copy, Debug, PartialEq, Eq)]
pub struct Refusal {
    pub number: u64,
    pub trace: u64,
    pub item: u64,
}

/// What a replay counted.
#[derive(Clone, Copy, Debug, PartialEq, Eq)]
pub struct Summary {
    pub items: u64,
    pub fetches: u64,
    pub evictions: u64,
    pub resident: u64,
    pub permillion: u64,
}

impl Refusal {
    /// A refusal that is not of one item: trace 1, item 0.
    pub fn new(number: u64) -> Self {
        Refusal {
            number,
            trace: 1,
            item: 0,
        }
    }

    /// A refusal of one item of a file.
    pub fn of_item(number: u64, item: u64) -> Self {
        Refusal {
            number,
            trace: 1,
            item,
        }
    }

    /// The same refusal, of a second file by itself.
    pub fn in_second(self) -> Self {
        Refusal { trace: 2, ..self }
    }
}

impl fmt::Display for Header {
    fn fmt(&self, f: &mut fmt::Formatter<'_>) -> fmt::Result {
        write!(
            f,
            "kind {} filter {} references {} items {}",
            self.kind, self.filter, self.references, self.items
        )
    }
}

impl fmt::Display for Refusal {
    fn fmt(&self, f: &mut fmt::Formatter<'_>) -> fmt::Result {
        write!(
            f,
            "refused {} trace {} item {}",
            self.number, self.trace, self.item
        )
    }
}

impl fmt::Display for Summary {
    fn fmt(&self, f: &mut fmt::Formatter<'_>) -> fmt::Result {
        write!(
            f,
            "items {} fetches {} evictions {} permillion {}",
            self.items, self.fetches, self.evictions, self.permillion
        )
    }
}
