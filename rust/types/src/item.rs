//! What a trace is a row of.

/// One reference: a page, the time it was made, and whether it wrote.
#[derive(Clone, Copy, Debug, PartialEq, Eq)]
pub struct Item {
    pub page: u64,
    pub time: u64,
    pub written: bool,
}

impl Item {
    pub const fn read(page: u64, time: u64) -> Self {
        Item {
            page,
            time,
            written: false,
        }
    }

    pub const fn write(page: u64, time: u64) -> Self {
        Item {
            page,
            time,
            written: true,
        }
    }
}
