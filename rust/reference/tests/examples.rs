//! The paper's examples on trace T, in which nothing is written.

use reference::{Frame, Header, Refusal, Summary, check, join, reduce, replay, run};
use types::Item;
use types::layout::{encode, whole};

/// The third number where nothing was evicted, which the fourth says.
const NONE: u64 = 0;
const DEMAND: u64 = 2;
const FASTSLIM: u64 = 1;

fn trace(pages_and_times: &[(u64, u64)]) -> Vec<Item> {
    pages_and_times
        .iter()
        .map(|&(page, time)| Item::read(page, time))
        .collect()
}

fn t() -> Vec<Item> {
    trace(&[
        (1, 10),
        (1, 20),
        (1, 30),
        (2, 40),
        (1, 50),
        (3, 60),
        (3, 70),
        (4, 80),
        (3, 90),
        (3, 100),
        (1, 110),
        (1, 120),
    ])
}

fn reduced(file: &[u8], mode: u64, filter: u64) -> Vec<u8> {
    let mut out = vec![0; file.len()];
    let header = reduce(file, mode, filter, &mut out).expect("taken");
    out.truncate(23 + 19 * header.items as usize);
    assert_eq!(check(&out), Ok(header));
    out
}

fn times(file: &[u8]) -> Vec<u64> {
    file[23..]
        .chunks_exact(19)
        .map(|item| u64::from_le_bytes(item[11..].try_into().unwrap()))
        .collect()
}

/// Replays from an empty cache: events, summary, resident pages. All are clean.
fn replayed(file: &[u8], size: u64) -> (Vec<[u64; 4]>, Summary, Vec<u64>) {
    let mut cache = vec![Frame::written(0); size as usize];
    let mut events = vec![0; 4 * times(file).len()];
    let summary = replay(file, size, &mut cache, 0, &mut events).expect("taken");
    events.truncate(4 * summary.fetches as usize);
    cache.truncate(summary.resident as usize);
    assert!(cache.iter().all(|frame| !frame.written));
    let pages = cache.iter().map(|frame| frame.page).collect();
    (events.as_chunks().0.to_vec(), summary, pages)
}

/// The five fetch lines of T with cache size 2.
fn five_lines() -> Vec<[u64; 4]> {
    vec![
        [10, 1, NONE, 0],
        [40, 2, NONE, 0],
        [60, 3, 2, 1],
        [80, 4, 1, 1],
        [110, 1, 4, 1],
    ]
}

#[test]
fn t_whole_with_cache_size_2() {
    let (events, summary, pages) = replayed(&whole(&t()), 2);
    assert_eq!(events, five_lines());
    let expected = Summary {
        items: 12,
        fetches: 5,
        evictions: 3,
        resident: 2,
        permillion: 416_666,
    };
    assert_eq!(summary, expected);
    assert_eq!(pages, [1, 3]);
}

/// The items alone do what their file does, and from a start as well.
#[test]
fn t_without_a_file() {
    let (events, summary, pages) = replayed(&whole(&t()), 2);
    let of_items = run(t(), 2, &[]);
    assert_eq!(of_items.events, events.concat());
    let clean = |pages: &[u64]| -> Vec<Frame> { pages.iter().copied().map(Frame::clean).collect() };
    assert_eq!(of_items.summary, summary);
    assert_eq!(of_items.frames, clean(&pages));

    let from_a_start = run(trace(&[(3, 5), (4, 6)]), 2, &clean(&[3, 9]));
    assert_eq!(from_a_start.events, [6, 4, 9, 1]);
    assert_eq!(from_a_start.frames, clean(&[4, 3]));
}

#[test]
fn demand_2_keeps_eight() {
    let file = reduced(&whole(&t()), DEMAND, 2);
    assert_eq!(times(&file), [10, 40, 50, 60, 80, 100, 110, 120]);
    assert_eq!(file.len(), 175);
}

#[test]
fn fastslim_2_keeps_ten() {
    let file = reduced(&whole(&t()), FASTSLIM, 2);
    assert_eq!(times(&file), [10, 30, 40, 50, 60, 70, 80, 100, 110, 120]);
}

#[test]
fn demand_4_keeps_six_and_ends_alike() {
    let file = reduced(&whole(&t()), DEMAND, 4);
    assert_eq!(times(&file), [10, 40, 60, 80, 100, 120]);
    assert_eq!(replayed(&file, 4).2, [1, 3, 4, 2]);
    assert_eq!(replayed(&whole(&t()), 4).2, [1, 3, 4, 2]);
}

#[test]
fn cache_2_on_the_demand_file() {
    let (events, summary, _) = replayed(&reduced(&whole(&t()), DEMAND, 2), 2);
    assert_eq!(events, five_lines());
    assert_eq!(summary.permillion, 625_000);
}

#[test]
fn cache_3_evicts_only_page_2() {
    let (events, _, _) = replayed(&whole(&t()), 3);
    assert_eq!(
        events,
        [
            [10, 1, NONE, 0],
            [40, 2, NONE, 0],
            [60, 3, NONE, 0],
            [80, 4, 2, 1]
        ]
    );
}

#[test]
fn cache_1_is_below_the_filter() {
    let (_, summary, _) = replayed(&whole(&t()), 1);
    assert_eq!((summary.fetches, summary.evictions), (7, 6));
    let file = reduced(&whole(&t()), DEMAND, 2);
    let answer = replay(&file, 1, &mut [Frame::clean(0)], 0, &mut [0; 32]);
    assert_eq!(answer, Err((Refusal::new(9), 0)));
}

#[test]
fn cut_after_70_and_joined() {
    let parts = t();
    let first = reduced(&whole(&parts[..7]), DEMAND, 2);
    let second = reduced(&whole(&parts[7..]), DEMAND, 2);
    assert_eq!((times(&first).len(), times(&second).len()), (5, 5));
    let mut joined = vec![0; 23 + 19 * 10];
    let header = join(&first, &second, &mut joined).expect("taken");
    let expected = Header {
        kind: 2,
        filter: 2,
        references: 12,
        items: 10,
    };
    assert_eq!(header, expected);
    let (events, summary, _) = replayed(&joined, 2);
    assert_eq!(events, five_lines());
    assert_eq!(summary.permillion, 500_000);
}

#[test]
fn one_page_five_times() {
    let five = trace(&[(7, 1), (7, 2), (7, 3), (7, 4), (7, 5)]);
    for mode in [FASTSLIM, DEMAND] {
        assert_eq!(times(&reduced(&whole(&five), mode, 1)), [1, 5]);
        assert_eq!(times(&reduced(&whole(&five[..1]), mode, 1)), [1]);
    }
}

#[test]
fn equal_times_keep_file_order() {
    let file = whole(&trace(&[(1, 5), (2, 5), (1, 5)]));
    for mode in [FASTSLIM, DEMAND] {
        assert_eq!(reduced(&file, mode, 2)[23..], file[23..]);
    }
}

#[test]
fn an_empty_trace() {
    let file = whole(&[]);
    assert_eq!(file.len(), 23);
    assert_eq!(reduced(&file, DEMAND, 2).len(), 23);
    let (events, summary, pages) = replayed(&file, 2);
    assert!(events.is_empty() && pages.is_empty());
    let nothing = Summary {
        items: 0,
        fetches: 0,
        evictions: 0,
        resident: 0,
        permillion: 0,
    };
    assert_eq!(summary, nothing);
}

#[test]
fn the_edges_of_the_sizes() {
    let file = whole(&t());
    let mut out = vec![0; file.len()];
    for (filter, taken) in [(0, false), (1, true), (1024, true), (1025, false)] {
        let answer = reduce(&file, DEMAND, filter, &mut out);
        assert_eq!(answer.is_ok(), taken, "filter {filter}");
        assert!(taken || answer == Err(Refusal::new(7)));
    }
    let (mut cache, mut events) = (vec![Frame::clean(0); 4097], vec![0; 48]);
    for (size, taken) in [(0, false), (1, true), (4096, true), (4097, false)] {
        let answer = replay(&file, size, &mut cache, 0, &mut events);
        assert_eq!(answer.is_ok(), taken, "cache {size}");
        assert!(taken || answer == Err((Refusal::new(7), 0)));
    }
}

#[test]
fn short_and_long_files() {
    let empty = whole(&[]);
    assert_eq!(check(&empty[..22]), Err(Refusal::new(1)));
    assert_eq!(check(&[&empty[..], &[0]].concat()), Err(Refusal::new(3)));
}

/// The first trap: only the misses of the filter are not enough.
#[test]
fn the_misses_alone_replay_wrongly() {
    let misses = trace(&[(1, 10), (2, 40), (3, 60), (4, 80), (1, 110)]);
    let header = Header {
        kind: 2,
        filter: 2,
        references: 12,
        items: 5,
    };
    let (events, _, _) = replayed(&encode(&header, &misses), 2);
    assert_eq!(events[2], [60, 3, 1, 1]);
}

/// In FastSlim an epoch keeps at most B(B+3)/2 items; B = 1 reaches it.
#[test]
fn the_bound_on_a_fastslim_epoch_is_reached() {
    // Phase n of the epoch names each of its n pages twice.
    for filter in 1..=8_u64 {
        let mut items = Vec::new();
        for newest in 0..filter {
            let repeated = (0..=newest).chain(0..=newest);
            items.extend(std::iter::once(newest).chain(repeated));
        }
        let items: Vec<_> = items.iter().map(|&page| Item::read(page, 0)).collect();
        let kept = times(&reduced(&whole(&items), FASTSLIM, filter)).len() as u64;
        assert_eq!(kept, filter * (filter + 3) / 2);
    }
}
