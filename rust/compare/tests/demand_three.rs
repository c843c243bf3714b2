//! A trace cut anywhere, each part reduced in its own way or left whole, and
//! joined again: from every start a cache at least as large as the largest
//! filter makes the same fetches, at the same times, evicts the same pages
//! written and clean, and ends alike, marks included.

use bindings::Proved;
use compare::report::say;
use compare::starts::Start;
use compare::{Random, traces};
use reference::Reference;
use types::event::{NOTHING, WRITTEN};
use types::layout::{HEADER_BYTES, ITEM_BYTES, file_bytes, whole};
use types::limits::LARGEST_FILTER;
use types::{Frame, Item, Library, NUMBERS_PER_EVENT, Summary};

const TRACES: u64 = 4_000;
const REPLAYS_EACH: u64 = 3;

struct Replayed {
    summary: Summary,
    events: Vec<u64>,
    cache: Vec<Frame>,
}

impl Replayed {
    /// How many written pages were evicted.
    fn written(&self) -> u64 {
        let (events, _) = self.events.as_chunks::<NUMBERS_PER_EVENT>();
        events.iter().filter(|event| event[3] == WRITTEN).count() as u64
    }

    /// Whether this page was evicted.
    fn evicts(&self, page: u64) -> bool {
        let (events, _) = self.events.as_chunks::<NUMBERS_PER_EVENT>();
        events
            .iter()
            .any(|event| event[2] == page && event[3] != NOTHING)
    }
}

/// What the replays have met: without these they would have shown nothing.
#[derive(Debug, Default)]
struct Met {
    replays: u64,
    evictions: u64,
    evicted_written: u64,
    left_written: u64,
    with_page_0_evicted: u64,
    with_the_last_page_evicted: u64,
}

impl Met {
    fn count(&mut self, replayed: &Replayed) {
        self.replays += 1;
        self.evictions += replayed.summary.evictions;
        self.evicted_written += replayed.written();
        let left = replayed.cache.iter().filter(|frame| frame.written);
        self.left_written += left.count() as u64;
        self.with_page_0_evicted += u64::from(replayed.evicts(0));
        self.with_the_last_page_evicted += u64::from(replayed.evicts(u64::MAX));
    }

    fn insist_on_enough(&self) {
        assert_eq!(self.replays, TRACES * REPLAYS_EACH);
        assert!(self.evictions > TRACES && self.left_written > TRACES);
        let evictions = self.evictions / 10..self.evictions;
        assert!(evictions.contains(&self.evicted_written));
        let ends = [self.with_page_0_evicted, self.with_the_last_page_evicted];
        assert!(ends.iter().all(|count| *count > TRACES / 20));
    }
}

#[test]
fn of_the_proved_library() {
    reductions_replay_alike("proved", &Proved);
}

#[test]
fn of_the_reference() {
    reductions_replay_alike("reference", &Reference);
}

fn reductions_replay_alike(name: &str, library: &dyn Library) {
    let seed = Random::seed();
    let mut random = Random::new(seed ^ 3);
    let (mut met, mut shorter) = (Met::default(), 0);
    for number in 0..TRACES {
        let pages = traces::pages(&mut random);
        let pool = traces::pool(&mut random, pages);
        let count = traces::length(&mut random);
        let items = traces::items(&mut random, &pool, count);
        let (joined, largest) = cut_reduced_joined(&mut random, library, &items);
        let whole = whole(&items);
        shorter += u64::from(joined.len() < whole.len());
        for _ in 0..REPLAYS_EACH {
            let start = Start::random(&mut random, largest, &pool);
            let one = replay(library, &whole, &start);
            let two = replay(library, &joined, &start);
            let place = format!("seed {seed} trace {number} size {}", start.size);
            same(&one, &two, &place);
            met.count(&one);
        }
    }
    say(&format!(
        "demand 3, {name}: seed {seed}, {TRACES} traces, {shorter} made shorter, {met:?}"
    ));
    assert!(shorter > TRACES / 3);
    met.insist_on_enough();
}

fn same(one: &Replayed, two: &Replayed, place: &str) {
    assert_eq!(one.events, two.events, "{place}: events");
    assert_eq!(one.cache, two.cache, "{place}: resident frames");
    let (one, two) = (one.summary, two.summary);
    assert_eq!(
        (one.fetches, one.evictions, one.resident),
        (two.fetches, two.evictions, two.resident),
        "{place}: counts"
    );
    let rate = (two.fetches * 1_000_000).checked_div(two.items);
    assert_eq!(two.permillion, rate.unwrap_or(0), "{place}: rate");
}

/// The joined file and the largest filter in it.
fn cut_reduced_joined(
    random: &mut Random,
    library: &dyn Library,
    items: &[Item],
) -> (Vec<u8>, u64) {
    let mut joined = whole(&[]);
    let (mut rest, mut largest) = (items, 0);
    loop {
        let last = random.once_in(3);
        let at = match last {
            true => rest.len(),
            false => random.index(rest.len() + 1),
        };
        let (part, after) = rest.split_at(at);
        let (part, filter) = perhaps_reduced(random, library, part);
        largest = largest.max(filter);
        joined = join(library, &joined, &part);
        rest = after;
        if last {
            return (joined, largest);
        }
    }
}

fn perhaps_reduced(random: &mut Random, library: &dyn Library, items: &[Item]) -> (Vec<u8>, u64) {
    let file = whole(items);
    if random.once_in(6) {
        return (file, 0);
    }
    let filter = match random.below(12) {
        0 => 1 + random.below(LARGEST_FILTER),
        1..4 => 1 + random.below(40),
        _ => 1 + random.below(5),
    };
    let mode = 1 + random.below(2);
    let mut out = vec![0; file.len()];
    let header = library
        .reduce(&file, mode, filter, &mut out)
        .expect("taken");
    out.truncate(file_bytes(header.items as usize));
    (out, filter)
}

fn join(library: &dyn Library, first: &[u8], second: &[u8]) -> Vec<u8> {
    let mut out = vec![0; first.len() + second.len()];
    let header = library.join(first, second, &mut out).expect("taken");
    out.truncate(file_bytes(header.items as usize));
    out
}

fn replay(library: &dyn Library, file: &[u8], start: &Start) -> Replayed {
    let mut cache = start.frames.clone();
    cache.resize(start.size as usize, Frame::clean(0));
    let items = (file.len() - HEADER_BYTES) / ITEM_BYTES;
    let mut events = vec![0; NUMBERS_PER_EVENT * items];
    let resident = start.frames.len();
    let summary = library
        .replay(file, start.size, &mut cache, resident, &mut events)
        .expect("taken");
    events.truncate(NUMBERS_PER_EVENT * summary.fetches as usize);
    cache.truncate(summary.resident as usize);
    Replayed {
        summary,
        events,
        cache,
    }
}
