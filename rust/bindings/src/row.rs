//! The row of eight numbers in which the archive answers: the refusal's
//! number (0 if taken), the trace, the item, then the values.

use types::{Header, Refusal, Summary};

pub const NUMBERS: usize = 8;

/// A row before a call holds this everywhere, so that a number the archive
/// did not write cannot pass for an answer.
const UNWRITTEN: u64 = u64::MAX;

pub struct Row(pub [u64; NUMBERS]);

impl Row {
    pub fn new() -> Self {
        Row([UNWRITTEN; NUMBERS])
    }

    pub fn header(&self) -> Result<Header, Refusal> {
        let [_, _, _, kind, filter, references, items, _] = self.0;
        match self.refusal() {
            Some(refusal) => Err(refusal),
            None => Ok(Header {
                kind,
                filter,
                references,
                items,
            }),
        }
    }

    pub fn summary(&self) -> Result<Summary, (Refusal, u64)> {
        let [_, _, _, items, fetches, evictions, resident, permillion] = self.0;
        match self.refusal() {
            Some(refusal) => Err((refusal, resident)),
            None => Ok(Summary {
                items,
                fetches,
                evictions,
                resident,
                permillion,
            }),
        }
    }

    fn refusal(&self) -> Option<Refusal> {
        let [number, trace, item, ..] = self.0;
        (number != 0).then_some(Refusal {
            number,
            trace,
            item,
        })
    }
}

#[cfg(test)]
mod tests {
    use super::*;

    #[test]
    fn a_taken_row_is_read_by_place() {
        let row = Row([0, 0, 0, 1, 2, 3, 4, 5]);
        let header = Header {
            kind: 1,
            filter: 2,
            references: 3,
            items: 4,
        };
        assert_eq!(row.header(), Ok(header));
        let summary = Summary {
            items: 1,
            fetches: 2,
            evictions: 3,
            resident: 4,
            permillion: 5,
        };
        assert_eq!(row.summary(), Ok(summary));
    }

    #[test]
    fn a_refused_row_is_read_by_place() {
        let row = Row([6, 2, 17, 0, 0, 0, 9, 0]);
        let refusal = Refusal {
            number: 6,
            trace: 2,
            item: 17,
        };
        assert_eq!(row.header(), Err(refusal));
        assert_eq!(row.summary(), Err((refusal, 9)));
    }

    #[test]
    fn an_unwritten_row_is_no_answer() {
        assert!(Row::new().header().is_err());
    }
}
