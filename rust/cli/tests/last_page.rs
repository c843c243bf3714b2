//! A recording of a pool that numbers its pages from the top, with page 0 among
//! them, through every command. What is printed as a dash is what the fourth
//! number says, so page 0 evicted and nothing evicted are told apart.

mod desk;

use desk::Desk;
use types::Item;
use types::layout::whole;

const LAST: u64 = u64::MAX;

/// In numbers of 64 bits: the last page, page 0, the last but one.
const LINES: &str = "\
18446744073709551615 10
18446744073709551615 20 w
18446744073709551615 30
0 40
18446744073709551615 50
18446744073709551614 60
18446744073709551614 70 w
0 80
18446744073709551614 90
18446744073709551615 100
18446744073709551615 110
";

/// With a cache of one page; the last is evicted written, then clean.
const WITH_CACHE_1: &str = "\
10 18446744073709551615 - 0
40 0 18446744073709551615 2
50 18446744073709551615 0 1
60 18446744073709551614 18446744073709551615 1
80 0 18446744073709551614 2
90 18446744073709551614 0 1
100 18446744073709551615 18446744073709551614 1
items 11 fetches 7 evictions 6 permillion 636363 transfers 9
pages 18446744073709551615
";

const WITH_CACHE_2: &str = "\
10 18446744073709551615 - 0
40 0 - 0
60 18446744073709551614 0 1
80 0 18446744073709551615 2
100 18446744073709551615 0 1
items 11 fetches 5 evictions 3 permillion 454545 transfers 6
pages 18446744073709551615 18446744073709551614
";

fn items() -> Vec<Item> {
    let pages = [LAST, LAST, LAST, 0, LAST, LAST - 1, LAST - 1, 0];
    let pages = [&pages[..], &[LAST - 1, LAST, LAST]].concat();
    let item = |(page, number): (u64, u64)| Item {
        page,
        time: 10 * number,
        written: [2, 7].contains(&number),
    };
    pages.into_iter().zip(1..).map(item).collect()
}

/// A desk with the recording, converted.
fn converted(name: &str) -> Desk {
    let desk = Desk::new(name);
    desk.put("lines", LINES.as_bytes());
    let line = "t: kind 0 filter 0 references 11 items 11\n";
    desk.run("convert lines -o t").is(0, line, "");
    desk
}

#[test]
fn it_is_converted_and_checked() {
    let desk = converted("last-page-convert");
    assert_eq!(desk.get("t"), whole(&items()));
    let line = "t: kind 0 filter 0 references 11 items 11\n";
    desk.run("check t").is(0, line, "");
}

#[test]
fn it_is_replayed_with_a_dash_where_nothing_was_evicted() {
    let desk = converted("last-page-replay");
    desk.run("replay --cache 1 t").is(0, WITH_CACHE_1, "");
    desk.run("replay --cache 2 t").is(0, WITH_CACHE_2, "");
}

/// The fetch lines and the resident pages, without the tally, whose rate is
/// that of the file.
fn but_the_tally(text: &str) -> Vec<&str> {
    let is_tally = |line: &&str| line.starts_with("items ");
    text.lines().filter(|line| !is_tally(line)).collect()
}

#[test]
fn it_is_reduced_and_joined_and_replays_alike() {
    let desk = converted("last-page-reduce");
    desk.put("a", &whole(&items()[..6]));
    desk.put("b", &whole(&items()[6..]));
    for mode in ["fastslim", "demand"] {
        for file in ["a", "b", "t"] {
            let words = format!("reduce --mode {mode} --filter 2 {file} -o {file}.{mode}");
            assert_eq!(desk.run(&words).status, 0);
        }
    }
    assert_eq!(desk.run("join a.demand b.fastslim -o one").status, 0);
    assert_eq!(desk.run("join a b.demand -o two").status, 0);
    for file in ["t.fastslim", "t.demand", "one", "two"] {
        let ended = desk.run(&format!("replay --cache 2 {file}"));
        assert_eq!(but_the_tally(&ended.out), but_the_tally(WITH_CACHE_2));
        let tally = "fetches 5 evictions 3";
        assert!(ended.out.contains(tally), "{file}: {}", ended.out);
    }
}

/// The page does not hide what is wrong with an item.
#[test]
fn a_fault_at_the_last_page_is_still_refused() {
    let desk = Desk::new("last-page-refused");
    let mut falling = items();
    falling[4].time = 39;
    desk.put("falling", &whole(&falling));
    let mut tag = whole(&items());
    tag[23 + 19 * 4] = 7;
    desk.put("tag", &tag);
    desk.run("check falling tag").is(
        1,
        "",
        "falling: refused 6 trace 1 item 4\ntag: refused 4 trace 1 item 4\n",
    );
    desk.put(
        "lines",
        b"18446744073709551615 5\n18446744073709551615 4 w\n",
    );
    desk.run("convert lines -o t")
        .is_broken("lines: line 2: time falls from 5 to 4");
    desk.put("lines", b"18446744073709551616 5\n");
    desk.run("convert lines -o t")
        .is_broken("line 1: expected `page time`");
}
