//! Writes through every command: taken in, reduced, joined, replayed.

mod desk;

use desk::{Desk, t};
use types::Item;
use types::layout::whole;

/// Trace T of the paper with writes at these times.
fn t_written_at(times: &[u64]) -> Vec<Item> {
    let mut items = t();
    for item in &mut items {
        item.written = times.contains(&item.time);
    }
    items
}

/// As `convert` takes them in.
fn lines(items: &[Item]) -> String {
    let line = |item: &Item| match item.written {
        true => format!("{} {} w\n", item.page, item.time),
        false => format!("{} {}\n", item.page, item.time),
    };
    items.iter().map(line).collect()
}

/// With writes at 20 and 70: page 1 is evicted written, page 3 stays so.
const REPLAYED: &str = "\
10 1 - 0
40 2 - 0
60 3 2 1
80 4 1 2
110 1 4 1
items 12 fetches 5 evictions 3 permillion 416666 transfers 6
pages 1 3
";

#[test]
fn convert_takes_a_third_word() {
    let desk = Desk::new("writes-convert");
    let items = t_written_at(&[20, 70]);
    desk.put("lines", lines(&items).as_bytes());
    let line = "t: kind 0 filter 0 references 12 items 12\n";
    desk.run("convert lines -o t").is(0, line, "");
    assert_eq!(desk.get("t"), whole(&items));
    desk.run("check t").is(0, line, "");
    for wrong in ["1 10 r", "1 10 6", "1 10 w w", "1 w"] {
        desk.put("lines", wrong.as_bytes());
        desk.run("convert lines -o u")
            .is_broken("line 1: expected `page time` or `page time w`");
    }
    assert_eq!(desk.names(), ["lines", "t"]);
}

/// The third word stands in the second file of a long recording too.
#[test]
fn convert_keeps_writes_beyond_a_file() {
    let desk = Desk::new("writes-long");
    let long = "7 7\n".repeat(1_000_000) + "8 8 w\n9 9\n";
    desk.put("lines", long.as_bytes());
    assert_eq!(desk.run("convert lines -o t").status, 0);
    let rest = [Item::write(8, 8), Item::read(9, 9)];
    assert_eq!(desk.get("t.1"), whole(&rest));
}

#[test]
fn replay_tells_written_pages_and_transfers() {
    let desk = Desk::new("writes-replay");
    desk.put("t", &whole(&t_written_at(&[20, 70])));
    desk.run("replay --cache 2 t").is(0, REPLAYED, "");
    let tally = "items 12 fetches 5 evictions 3 permillion 416666 transfers 6\n";
    desk.run("replay --quiet --cache 2 t").is(0, tally, "");
    let all: Vec<u64> = t().iter().map(|item| item.time).collect();
    desk.put("t", &whole(&t_written_at(&all)));
    let tally = "items 12 fetches 5 evictions 3 permillion 416666 transfers 8\n";
    desk.run("replay --quiet --cache 2 t").is(0, tally, "");
}

/// The lines of a replay without the number of items and the rate.
fn but_the_rate(text: &str) -> String {
    let line = |line: &str| match line.split_once(" fetches ") {
        Some((_, counts)) => {
            let (fetches, rate) = counts.split_once(" permillion ").unwrap();
            let (_, transfers) = rate.split_once(' ').unwrap();
            format!("fetches {fetches} {transfers}\n")
        }
        None => format!("{line}\n"),
    };
    text.lines().map(line).collect()
}

/// Each way to reduce and join gives the same lines, fourth numbers and
/// transfers included.
#[test]
fn reductions_and_joins_replay_alike() {
    let desk = Desk::new("writes-reduce");
    let items = t_written_at(&[20, 70]);
    desk.put("a", &whole(&items[..7]));
    desk.put("b", &whole(&items[7..]));
    desk.put("t", &whole(&items));
    for mode in ["fastslim", "demand"] {
        for file in ["a", "b", "t"] {
            let words = format!("reduce --mode {mode} --filter 2 {file} -o {file}.{mode}");
            assert_eq!(desk.run(&words).status, 0);
        }
    }
    assert_eq!(desk.run("join a.demand b.fastslim -o one").status, 0);
    assert_eq!(desk.run("join a b.demand -o two").status, 0);
    for file in ["t.fastslim", "t.demand", "one", "two"] {
        let ended = desk.run(&format!("replay --cache 2 {file}"));
        assert_eq!(but_the_rate(&ended.out), but_the_rate(REPLAYED), "{file}");
    }
}

#[test]
fn another_tag_is_refused() {
    let desk = Desk::new("writes-tag");
    for (tag, number) in [(4, Some(4)), (5, None), (6, None), (7, Some(4))] {
        let mut file = whole(&t());
        file[23 + 19 * 3] = tag;
        desk.put("t", &file);
        match number {
            None => assert_eq!(desk.run("check t").status, 0, "tag {tag}"),
            Some(number) => {
                desk.run("check t")
                    .is(1, "", &format!("t: refused {number} trace 1 item 3\n"))
            }
        }
    }
}

#[test]
fn help_tells_of_writes() {
    let desk = Desk::new("writes-help");
    for (command, word) in [
        ("replay", "transfers T"),
        ("replay", "written since its fetch"),
        ("convert", "`page time w`"),
        ("convert", "a store (S) and a"),
        ("reduce", "A write that is left out"),
    ] {
        let help = desk.run(&format!("{command} --help")).out;
        assert!(help.contains(word), "{command}: {word}");
    }
}
