//! Random trace files that keep the rules.

use crate::{Random, traces};
use types::layout::{encode, whole};
use types::limits::{LARGEST_FILTER, MOST_REFERENCES};
use types::{Header, Item};

/// A file with its parts at hand, for those who make calls of it.
#[derive(Clone)]
pub struct Good {
    pub bytes: Vec<u8>,
    pub header: Header,
    pub pool: Vec<u64>,
}

/// A file of any kind.
pub fn good(random: &mut Random) -> Good {
    let kind = random.below(3);
    of_kind(random, kind)
}

pub fn of_kind(random: &mut Random, kind: u64) -> Good {
    let pages = traces::pages(random);
    let pool = traces::pool(random, pages);
    let count = traces::length(random);
    let items = traces::items(random, &pool, count);
    let bytes = file(random, kind, &items);
    let header = header_of(&bytes);
    Good {
        bytes,
        header,
        pool,
    }
}

/// These items as a file of this kind. Any items may stand in a reduced file:
/// nothing in it says which ones were left out.
pub fn file(random: &mut Random, kind: u64, items: &[Item]) -> Vec<u8> {
    if kind == 0 {
        return whole(items);
    }
    let count = items.len() as u64;
    let references = match random.below(4) {
        _ if count == 0 => 0,
        0 => count,
        1 => MOST_REFERENCES - random.below(20),
        _ => count + random.below(1000),
    };
    let header = Header {
        kind,
        filter: filter(random),
        references,
        items: count,
    };
    encode(&header, items)
}

/// A filter size in its range, mostly small.
pub fn filter(random: &mut Random) -> u64 {
    match random.below(20) {
        0 => LARGEST_FILTER,
        1 => 1 + random.below(LARGEST_FILTER),
        2..7 => 1 + random.below(40),
        _ => 1 + random.below(5),
    }
}

fn header_of(file: &[u8]) -> Header {
    use types::layout::{FILTER, ITEMS, KIND, REFERENCES};
    Header {
        kind: KIND.value(file),
        filter: FILTER.value(file),
        references: REFERENCES.value(file),
        items: ITEMS.value(file),
    }
}
