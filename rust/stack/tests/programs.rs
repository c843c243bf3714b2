//! The programs `reduce` and `replay` do their work, and the stack that they
//! take is measured on x86-64, for which they are.

use compare::report::say;
use stack::inputs::for_programs;
use stack::programs::written;
use types::event::{CLEAN, NOTHING, WRITTEN};
use types::layout::{file_bytes, whole};
use types::limits::{LARGEST_CACHE, LARGEST_FILTER};
use types::{Frame, Item, NUMBERS_PER_EVENT};

/// Settings of the largest filter in mode 2, and of the largest cache.
const REDUCE: (&str, &[u8]) = ("reduce", &[17, 3, 0, 2, 0, 4]);
const REPLAY: (&str, &[u8]) = ("replay", &[16, 2, 0, 0, 16]);

/// A cache that is too small for the trace's pages, so that pages go.
const SMALL_CACHE: u64 = 64;
const SMALL_REPLAY: (&str, &[u8]) = ("replay", &[16, 2, 0, SMALL_CACHE as u8, 0]);

/// A program's input: settings and the longest trace that it takes.
fn input(settings: &[u8]) -> Vec<u8> {
    [settings, &for_programs()].concat()
}

/// What a program writes. Says what is not tested where that is so.
fn output((program, settings): (&str, &[u8])) -> Vec<u8> {
    if cfg!(not(target_arch = "x86_64")) {
        say(&format!(
            "stack: program {program}: for x86-64 alone, its stack NOT measured"
        ));
    }
    written(program, &input(settings)).unwrap_or_else(|error| panic!("{error}"))
}

#[test]
fn reduce_writes_the_librarys_file() {
    let file = for_programs();
    let mut out = vec![0; file.len()];
    let header = bindings::reduce(&file, 2, LARGEST_FILTER, &mut out).expect("a reduction");
    out.truncate(file_bytes(header.items as usize));
    assert_eq!(output(REDUCE), out);
}

/// What the program should write: a line for each fetch that the library
/// finds, then the tally and the pages. With it, the fourth numbers.
fn replayed(size: u64) -> (String, Vec<u64>) {
    let file = for_programs();
    let mut cache = vec![Frame::clean(0); size as usize];
    let mut events = vec![0; NUMBERS_PER_EVENT * file.len()];
    let summary = bindings::replay(&file, size, &mut cache, 0, &mut events).expect("a replay");
    let events = &events.as_chunks::<NUMBERS_PER_EVENT>().0[..summary.fetches as usize];
    let line = |[time, page, evicted, what]: &[u64; NUMBERS_PER_EVENT]| match *what {
        NOTHING => format!("{time} {page} - {what}\n"),
        _ => format!("{time} {page} {evicted} {what}\n"),
    };
    let fetches: String = events.iter().map(line).collect();
    let pages = cache[..summary.resident as usize].iter();
    let pages: String = pages.map(|frame| format!(" {}", frame.page)).collect();
    let fourth = events.iter().map(|event| event[3]).collect();
    (format!("{fetches}{summary}\npages{pages}\n"), fourth)
}

#[test]
fn replay_writes_the_librarys_lines() {
    for (size, program) in [(LARGEST_CACHE, REPLAY), (SMALL_CACHE, SMALL_REPLAY)] {
        let output = String::from_utf8(output(program)).expect("text");
        assert_eq!(output, replayed(size).0, "{size}");
    }
}

/// The line of a fetch has a dash where the fourth number says that nothing was
/// evicted, and not where page 0 was or the last page.
#[test]
fn replay_tells_the_first_page_and_the_last_from_nothing() {
    let pages = [u64::MAX, 0, u64::MAX, 5];
    let item = |(page, time): (u64, u64)| Item::write(page, time);
    let items: Vec<Item> = pages.into_iter().zip(1..).map(item).collect();
    let input = [&[16, 2, 0, 1, 0], &whole(&items)[..]].concat();
    let output = written("replay", &input).unwrap_or_else(|error| panic!("{error}"));
    let lines = "\
1 18446744073709551615 - 0
2 0 18446744073709551615 2
3 18446744073709551615 0 2
4 5 18446744073709551615 2
items 4 fetches 4 evictions 3 permillion 1000000
pages 5
";
    assert_eq!(String::from_utf8_lossy(&output), lines);
}

/// Otherwise the lines would show little.
#[test]
fn the_small_cache_evicts_clean_and_written_pages() {
    let (_, fourth) = replayed(SMALL_CACHE);
    for what in [NOTHING, CLEAN, WRITTEN] {
        let count = fourth.iter().filter(|number| **number == what).count();
        assert!(count > 50, "{what}: {count}");
    }
}

#[cfg(target_arch = "x86_64")]
mod measured {
    use super::{REDUCE, REPLAY, input, output, say};
    use stack::figures::{Figure, of_programs};
    use stack::painted::PAINTED;
    use stack::programs::measured;

    #[test]
    fn the_programs_are_measured() {
        for Figure { name, depth } in of_programs().unwrap_or_else(|error| panic!("{error}")) {
            say(&format!("stack: {name}: {depth} bytes"));
            assert!(depth > 0 && depth < PAINTED, "{name}: {depth}");
        }
    }

    /// A program that is measured writes what it writes when it is not.
    #[test]
    fn a_measured_program_does_its_work() {
        for (program, settings) in [REDUCE, REPLAY] {
            let run = measured(program, &input(settings)).unwrap_or_else(|error| panic!("{error}"));
            assert!(run.output.len() > 1000);
            assert_eq!(run.output, output((program, settings)), "{program}");
        }
    }
}
