//! The traces that are timed.

use types::Item;
use types::layout::whole;

pub const ITEMS: u64 = 1_000_000;

pub struct Trace {
    pub name: String,
    pub items: u64,
    pub file: Vec<u8>,
    /// The same trace as two files, for the join.
    pub halves: [Vec<u8>; 2],
}

/// Larger than the cache of 2,048 pages, smaller than that of 4,096: in the one
/// every item is a fetch, in the other a hit far back in the list.
const LOOP_PAGES: u64 = 3000;

/// How many pages the skewed trace can name.
const SKEWED_PAGES: f64 = 100_000.0;

pub const SEED: u64 = 0x7ACE_0001;

/// Another, so that pages and writes have nothing to do with each other.
const WRITES_SEED: u64 = 0x7ACE_0002;

/// Which items of a trace are writes.
#[derive(Clone, Copy, Debug, PartialEq, Eq)]
pub enum Writes {
    None,
    ThreeInTen,
}

impl Writes {
    /// The traces with writes stand beside those without in a table.
    fn name(self, trace: &str) -> String {
        match self {
            Writes::None => trace.to_string(),
            Writes::ThreeInTen => format!("{trace}, writes"),
        }
    }

    /// Told a random state of their own, whether the next item is one: so the
    /// pages of a trace are the same with both.
    fn next(self, state: &mut u64) -> bool {
        match self {
            Writes::None => false,
            Writes::ThreeInTen => next(state) % 10 < 3,
        }
    }
}

/// Each without writes and then with. No page of the sequential ones comes
/// twice.
pub fn all() -> impl Iterator<Item = Trace> {
    let of_each = |writes| {
        [
            trace_with(writes, "sequential", ITEMS, |number| number),
            trace_with(writes, "looping", ITEMS, |number| number % LOOP_PAGES),
            skewed_with(writes, "skewed", ITEMS),
        ]
    };
    let [plain, written] = [Writes::None, Writes::ThreeInTen].map(of_each);
    plain.into_iter().zip(written).flat_map(<[Trace; 2]>::from)
}

/// So many pages, again and again.
pub fn looping(pages: u64) -> Trace {
    trace(&format!("loop {pages}"), ITEMS, |number| number % pages)
}

pub fn skewed_trace(name: &str, items: u64) -> Trace {
    skewed_with(Writes::None, name, items)
}

fn skewed_with(writes: Writes, name: &str, items: u64) -> Trace {
    let mut state = SEED;
    trace_with(writes, name, items, |_| skewed(&mut state))
}

/// A page's share falls with its rank, as in Zipf's law.
pub fn skewed(state: &mut u64) -> u64 {
    let part = next(state) as f64 / (u64::MAX as f64);
    SKEWED_PAGES.powf(part) as u64
}

/// A trace in which nothing is written.
pub fn trace(name: &str, items: u64, page: impl FnMut(u64) -> u64) -> Trace {
    trace_with(Writes::None, name, items, page)
}

fn trace_with(writes: Writes, name: &str, items: u64, mut page: impl FnMut(u64) -> u64) -> Trace {
    let mut state = WRITES_SEED;
    let row: Vec<Item> = (0..items)
        .map(|time| Item {
            page: page(time),
            time,
            written: writes.next(&mut state),
        })
        .collect();
    let (first, second) = row.split_at(row.len() / 2);
    Trace {
        name: writes.name(name),
        items,
        file: whole(&row),
        halves: [whole(first), whole(second)],
    }
}

/// xorshift64.
pub fn next(state: &mut u64) -> u64 {
    *state ^= *state << 13;
    *state ^= *state >> 7;
    *state ^= *state << 17;
    *state
}

#[cfg(test)]
mod tests {
    use super::*;

    /// The rows of a table that stand side by side differ in their writes
    /// alone, of which there are three in ten.
    #[test]
    fn pairs_have_the_same_pages() {
        let traces: Vec<Trace> = all().collect();
        let names: Vec<&str> = traces.iter().map(|trace| trace.name.as_str()).collect();
        assert_eq!(names[..3], ["sequential", "sequential, writes", "looping"]);
        for pair in traces.chunks_exact(2) {
            let items = pair.iter().map(|trace| reference::items(&trace.file));
            let [plain, written] = &items.map(Vec::from_iter).collect::<Vec<_>>()[..] else {
                panic!("a pair");
            };
            let unwritten = |item: &Item| Item::read(item.page, item.time);
            assert!(
                plain
                    .iter()
                    .eq(&written.iter().map(unwritten).collect::<Vec<_>>())
            );
            let writes = written.iter().filter(|item| item.written).count() as u64;
            assert!((ITEMS / 4..ITEMS / 3).contains(&writes), "{writes}");
        }
    }
}
