//! Refusals, wrong command lines, and files that cannot be read or written:
//! the status, the message, and nothing left behind.

mod desk;

use desk::{Desk, t, t_file};
use std::fs;
use types::Item;
use types::layout::whole;

#[test]
fn refused_files_go_to_standard_error_in_order() {
    let desk = Desk::new("refused");
    desk.put("t", &t_file());
    desk.put("short", &t_file()[..22]);
    let mut falling = t();
    falling[5].time = 1;
    desk.put("falling", &whole(&falling));
    desk.run("check short t falling").is(
        1,
        "t: kind 0 filter 0 references 12 items 12\n",
        "short: refused 1 trace 1 item 0\nfalling: refused 6 trace 1 item 5\n",
    );
    let line = "t: refused 7 trace 1 item 0\n";
    for size in ["0", "4097", "18446744073709551615"] {
        desk.run(&format!("replay --cache {size} t"))
            .is(1, "", line);
    }
    desk.run("replay --cache 2 --quiet falling t").is(
        1,
        "t: items 12 fetches 5 evictions 3 permillion 416666 transfers 5\n",
        "falling: refused 6 trace 1 item 5\n",
    );
}

#[test]
fn a_refused_reduction_writes_nothing() {
    let desk = Desk::new("refused-reduce");
    desk.put("t", &t_file());
    desk.put("old", b"what was there before");
    desk.run("reduce --mode demand --filter 2 t -o d");
    let again = "reduce --mode demand --filter 2 d -o old";
    desk.run(again).is(1, "", "d: refused 8 trace 1 item 0\n");
    let outside = "reduce --mode demand --filter 1025 t -o new";
    desk.run(outside).is(1, "", "t: refused 7 trace 1 item 0\n");
    assert_eq!(desk.get("old"), b"what was there before");
    assert_eq!(desk.names(), ["d", "old", "t"]);
    desk.run("replay --cache 1 d")
        .is(1, "", "d: refused 9 trace 1 item 0\n");
}

#[test]
fn a_folder_of_reductions_goes_on_after_a_refusal() {
    let desk = Desk::new("refused-folder");
    desk.folder("out");
    desk.put("good", &t_file());
    desk.put("bad", &t_file()[..50]);
    desk.run("reduce --mode fastslim --filter 2 bad good --out-dir out")
        .is(
            1,
            "out/good: kind 1 filter 2 references 12 items 10\n",
            "bad: refused 3 trace 1 item 0\n",
        );
    assert!(!desk.path("out/bad").exists());
}

#[test]
fn a_refused_join_names_the_file() {
    let desk = Desk::new("refused-join");
    desk.put("a", &whole(&t()[..7]));
    desk.put("b", &whole(&t()[7..]));
    let mut broken = t_file();
    broken[23 + 19] = 7;
    desk.put("x", &broken);
    desk.run("join x a -o j")
        .is(1, "", "x: refused 4 trace 1 item 1\n");
    desk.run("join a b x -o j")
        .is(1, "", "x: refused 4 trace 2 item 1\n");
    desk.run("join b a -o j")
        .is(1, "", "a: refused 12 trace 1 item 0\n");
    desk.run("join a b a -o j")
        .is(1, "", "a: refused 12 trace 1 item 0\n");
    assert_eq!(desk.names(), ["a", "b", "x"]);
}

#[test]
fn an_overlong_file_is_refused_without_being_read() {
    let desk = Desk::new("overlong");
    desk.put("zeros", &[]);
    let file = fs::OpenOptions::new().write(true).open(desk.path("zeros"));
    // A hole: it takes no room on the disk, but would in memory.
    file.unwrap().set_len(1 << 40).unwrap();
    desk.run("check zeros")
        .is(1, "", "zeros: refused 1 trace 1 item 0\n");
    desk.put("long", &t_file());
    let file = fs::OpenOptions::new().write(true).open(desk.path("long"));
    file.unwrap().set_len(1 << 40).unwrap();
    desk.run("check long")
        .is(1, "", "long: refused 3 trace 1 item 0\n");
}

/// A command line and a part of the message it gets.
const WRONG_LINES: &[(&str, &str)] = &[
    ("", "no command given"),
    ("frob", "no command `frob`"),
    ("check", "no file given"),
    ("check --frob t", "no option --frob"),
    ("reduce t -o d", "--mode is missing"),
    ("reduce --mode x --filter 2 t -o d", "fastslim or demand"),
    ("reduce --mode demand t -o d", "--filter is missing"),
    ("reduce --mode demand --filter two t -o d", "whole number"),
    ("reduce --mode demand --filter -2 t -o d", "whole number"),
    (
        "reduce --mode demand --filter 2 t",
        "either -o or --out-dir",
    ),
    (
        "reduce --mode demand --filter 2 t -o d --out-dir out",
        "either",
    ),
    (
        "reduce --mode demand --filter 2 t t -o d",
        "takes one input",
    ),
    (
        "reduce --mode demand --filter 2 t t --out-dir out",
        "two inputs",
    ),
    ("reduce --mode demand --filter 2 -o d", "no file given"),
    ("join t -o j", "further file"),
    ("join t t", "-o is missing"),
    ("join t t -o", "-o needs a value"),
    ("replay t", "--cache is missing"),
    ("replay --cache 2", "no file given"),
    ("convert t", "-o is missing"),
    ("convert t t -o d", "one input"),
    ("convert --page-bits 12 t -o d", "goes with --lackey"),
    ("convert --lackey --page-bits 64 t -o d", "0 to 63"),
];

#[test]
fn wrong_command_lines() {
    let desk = Desk::new("usage");
    desk.put("t", &t_file());
    desk.folder("out");
    for (words, part) in WRONG_LINES {
        desk.run(words).is_broken(part);
    }
    assert_eq!(desk.names(), ["out", "t"]);
}

#[test]
fn files_that_cannot_be_read() {
    let desk = Desk::new("unreadable");
    desk.put("t", &t_file());
    desk.folder("folder");
    for command in [
        "check missing",
        "reduce --mode demand --filter 2 missing -o d",
        "join t missing -o d",
        "replay --cache 2 missing",
        "convert missing -o d",
    ] {
        desk.run(command).is_broken("missing: No such file");
    }
    desk.run("check folder").is_broken("folder: Is a directory");
    // The other files are still worked on, and the gravest status stays.
    desk.put("short", b"");
    let ended = desk.run("check missing short t");
    assert_eq!(ended.status, 2);
    assert_eq!(ended.out, "t: kind 0 filter 0 references 12 items 12\n");
    assert!(ended.err.contains("short: refused 1 trace 1 item 0\n"));
    assert_eq!(desk.names(), ["folder", "short", "t"]);
}

#[test]
fn files_that_cannot_be_written() {
    let desk = Desk::new("unwritable");
    desk.put("t", &t_file());
    desk.folder("folder");
    let reduce = "reduce --mode demand --filter 2";
    desk.run(&format!("{reduce} t -o folder"))
        .is_broken("not a regular file");
    // A device, by a name in this folder: a rename would hit only that name.
    std::os::unix::fs::symlink("/dev/null", desk.path("device")).unwrap();
    desk.run(&format!("{reduce} t -o device"))
        .is_broken("not a regular file");
    desk.run(&format!("{reduce} t -o no/d"))
        .is_broken("no/d: No such file");
    desk.run(&format!("{reduce} t --out-dir no"))
        .is_broken("no such folder");
    assert_eq!(desk.names(), ["device", "folder", "t"]);
}

#[test]
fn an_output_that_is_an_input() {
    let desk = Desk::new("same");
    desk.put("t", &t_file());
    desk.put("empty", &whole(&[]));
    desk.folder("folder");
    desk.put("folder/t", &t_file());
    std::os::unix::fs::symlink("t", desk.path("link")).unwrap();
    for command in [
        "reduce --mode demand --filter 2 t -o t",
        "reduce --mode demand --filter 2 t -o folder/../t",
        "reduce --mode demand --filter 2 t -o link",
        "reduce --mode demand --filter 2 t --out-dir .",
        "join empty t -o t",
        "join t empty -o ./t",
        "convert t -o t",
    ] {
        desk.run(command).is_broken("is an input as well");
    }
    // The output of one input would take the place of another input.
    std::os::unix::fs::symlink("folder/t", desk.path("other")).unwrap();
    let across = "reduce --mode demand --filter 2 t other --out-dir folder";
    desk.run(across).is_broken("is an input as well");
    assert_eq!(desk.get("t"), t_file());
    assert_eq!(desk.get("folder/t"), t_file());
}

#[test]
fn a_fault_late_in_a_recording_leaves_nothing() {
    let desk = Desk::new("late-fault");
    let mut lines = "7 7\n".repeat(1_000_001);
    lines.push_str("7 6\n");
    desk.put("lines", lines.as_bytes());
    let ended = desk.run("convert lines -o t");
    ended.is_broken("lines: line 1000002: time falls from 7 to 6");
    assert_eq!(desk.names(), ["lines"]);
    desk.put("lines", b"1 2\nnonsense\n");
    desk.run("convert lines -o t")
        .is_broken("line 2: expected `page time`");
    assert_eq!(desk.names(), ["lines"]);
}

#[test]
fn a_numbered_file_is_kept_off_the_input() {
    let desk = Desk::new("numbered-same");
    let lines = "7 7\n".repeat(1_000_001);
    desk.put("t.0", lines.as_bytes());
    desk.run("convert t.0 -o t")
        .is_broken("is an input as well");
    assert_eq!(desk.names(), ["t.0"]);
}

#[test]
fn a_write_that_stops_half_way_leaves_nothing() {
    let desk = Desk::new("half-way");
    let item = |page| Item::read(page, page);
    desk.put("t", &whole(&(0..1000).map(item).collect::<Vec<_>>()));
    desk.put("old", b"what was there before");
    let reduce = "reduce --mode demand --filter 9 t -o";
    desk.run_short_of_room(&format!("{reduce} old"))
        .is_broken("old: File too large");
    desk.run_short_of_room(&format!("{reduce} new"))
        .is_broken("new: File too large");
    assert_eq!(desk.get("old"), b"what was there before");
    assert_eq!(desk.names(), ["old", "t"]);
}

#[test]
fn of_numbered_files_all_are_written_or_none() {
    let desk = Desk::new("numbered-none");
    desk.put("lines", "7 7\n".repeat(1_000_001).as_bytes());
    desk.folder("t.1");
    desk.run("convert lines -o t")
        .is_broken("t.1: not a regular file");
    assert_eq!(desk.names(), ["lines", "t.1"]);
}
