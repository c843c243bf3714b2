//! What each command does when all goes well.

mod desk;

use desk::{Desk, T_REPLAYED, t, t_file};
use types::Item;
use types::layout::whole;

#[test]
fn check_prints_a_line_for_each_file() {
    let desk = Desk::new("check");
    desk.put("t", &t_file());
    desk.put("empty", &whole(&[]));
    desk.run("check t empty").is(
        0,
        "t: kind 0 filter 0 references 12 items 12\n\
         empty: kind 0 filter 0 references 0 items 0\n",
        "",
    );
}

#[test]
fn reduce_writes_the_papers_files() {
    let desk = Desk::new("reduce");
    desk.put("t", &t_file());
    let line = "d: kind 2 filter 2 references 12 items 8\n";
    desk.run("reduce --mode demand --filter 2 t -o d")
        .is(0, line, "");
    assert_eq!(desk.get("d").len(), 175);
    let line = "f: kind 1 filter 2 references 12 items 10\n";
    desk.run("reduce --mode=fastslim --filter=2 t -o=f")
        .is(0, line, "");
    assert_eq!(desk.names(), ["d", "f", "t"]);
}

#[test]
fn reduce_into_a_folder_keeps_names_and_order() {
    let desk = Desk::new("reduce-folder");
    desk.folder("out");
    let names: Vec<String> = (0..20).map(|n| format!("t{n}")).collect();
    let mut expected = String::new();
    for (number, name) in names.iter().enumerate() {
        let items = &t()[..number % 13];
        desk.put(name, &whole(items));
        let kept = [0, 1, 2, 2, 3, 3, 4, 5, 6, 6, 6, 7, 8][items.len()];
        expected += &format!(
            "out/{name}: kind 2 filter 2 references {} items {kept}\n",
            items.len()
        );
    }
    let words = format!(
        "reduce --mode demand --filter 2 {} --out-dir out",
        names.join(" ")
    );
    let ended = desk.run(&words);
    assert_eq!((ended.status, ended.err.as_str()), (0, ""));
    assert_eq!(ended.out.lines().count(), 20);
    assert_eq!(ended.out, expected);
}

#[test]
fn join_of_the_cut_trace_replays_alike() {
    let desk = Desk::new("join");
    desk.put("a", &whole(&t()[..7]));
    desk.put("b", &whole(&t()[7..]));
    desk.run("reduce --mode demand --filter 2 a -o ra");
    desk.run("reduce --mode demand --filter 2 b -o rb");
    let line = "j: kind 2 filter 2 references 12 items 10\n";
    desk.run("join ra rb -o j").is(0, line, "");
    let expected = T_REPLAYED
        .replace("items 12", "items 10")
        .replace("416666", "500000");
    desk.run("replay --cache 2 j").is(0, &expected, "");
}

#[test]
fn join_of_many_goes_from_the_left() {
    let desk = Desk::new("join-many");
    for number in 0..12 {
        desk.put(&format!("p{number}"), &whole(&t()[number..=number]));
    }
    let parts: Vec<String> = (0..12).map(|n| format!("p{n}")).collect();
    let line = "j: kind 0 filter 0 references 12 items 12\n";
    desk.run(&format!("join {} -o j", parts.join(" ")))
        .is(0, line, "");
    assert_eq!(desk.get("j"), t_file());
}

#[test]
fn replay_prints_as_the_paper_does() {
    let desk = Desk::new("replay");
    desk.put("t", &t_file());
    desk.put("empty", &whole(&[]));
    desk.run("replay --cache 2 t").is(0, T_REPLAYED, "");
    let tally = "items 12 fetches 5 evictions 3 permillion 416666 transfers 5\n";
    desk.run("replay --quiet --cache 2 t").is(0, tally, "");
    let none = "items 0 fetches 0 evictions 0 permillion 0 transfers 0\n";
    let nothing = format!("{none}pages\n");
    desk.run("replay --cache 4096 empty").is(0, &nothing, "");
    let both = format!("t:\n{T_REPLAYED}empty:\n{nothing}");
    desk.run("replay --cache 2 t empty").is(0, &both, "");
    let quiet = format!("t: {tally}empty: {none}");
    desk.run("replay --cache 2 --quiet t empty")
        .is(0, &quiet, "");
}

#[test]
fn convert_of_plain_lines() {
    let desk = Desk::new("convert");
    let lines: String = t()
        .iter()
        .map(|i| format!("{} {}\n", i.page, i.time))
        .collect();
    desk.put("lines", lines.as_bytes());
    let line = "t: kind 0 filter 0 references 12 items 12\n";
    desk.run("convert lines -o t").is(0, line, "");
    assert_eq!(desk.get("t"), t_file());
    let input = std::fs::File::open(desk.path("lines")).unwrap();
    desk.run_with("convert - -o t2", input.into()).is(
        0,
        "t2: kind 0 filter 0 references 12 items 12\n",
        "",
    );
    assert_eq!(desk.get("t2"), t_file());
}

#[test]
fn convert_of_a_lackey_recording() {
    let desk = Desk::new("convert-lackey");
    desk.put(
        "log",
        b"==1== Lackey\nI  04001090,3\n S 1ffefff7e8,8\n M 04001fff,4\n==1== end\n",
    );
    // An instruction is read; a store and a modify write.
    let items = |pages: [u64; 3]| {
        whole(&[
            Item::read(pages[0], 0),
            Item::write(pages[1], 1),
            Item::write(pages[2], 2),
        ])
    };
    assert_eq!(desk.run("convert --lackey log -o t").status, 0);
    assert_eq!(desk.get("t"), items([0x4001, 0x1ffefff, 0x4001]));
    assert_eq!(
        desk.run("convert --lackey --page-bits 16 log -o t").status,
        0
    );
    assert_eq!(desk.get("t"), items([0x400, 0x1ffeff, 0x400]));
}

#[test]
fn a_long_recording_is_cut() {
    let desk = Desk::new("convert-long");
    let lines: String = (0..1_000_003)
        .map(|n| format!("{} {n}\n", n % 50))
        .collect();
    desk.put("lines", lines.as_bytes());
    desk.run("convert lines -o t").is(
        0,
        "t.0: kind 0 filter 0 references 1000000 items 1000000\n\
         t.1: kind 0 filter 0 references 3 items 3\n",
        "",
    );
    assert_eq!(desk.names(), ["lines", "t.0", "t.1"]);
    let times = (1_000_000..1_000_003).map(|n| Item::read(n % 50, n));
    assert_eq!(desk.get("t.1"), whole(&times.collect::<Vec<_>>()));
    // A full file is worked on like any other.
    desk.run("replay --quiet --cache 64 t.0 t.1").is(
        0,
        "t.0: items 1000000 fetches 50 evictions 0 permillion 50 transfers 50\n\
         t.1: items 3 fetches 3 evictions 0 permillion 1000000 transfers 3\n",
        "",
    );
    // Exactly a million is not cut.
    let end = lines.match_indices('\n').nth(999_999).unwrap().0;
    desk.put("lines", &lines.as_bytes()[..=end]);
    let line = "u: kind 0 filter 0 references 1000000 items 1000000\n";
    desk.run("convert lines -o u").is(0, line, "");
}

#[test]
fn help_for_the_tool_and_each_command() {
    let desk = Desk::new("help");
    let tool = desk.run("--help");
    assert_eq!((tool.status, tool.err.as_str()), (0, ""));
    for command in ["check", "reduce", "join", "replay", "convert"] {
        assert!(tool.out.contains(&format!("shkembruq {command}")));
        let help = desk.run(&format!("{command} --help"));
        assert_eq!((help.status, help.err.as_str()), (0, ""));
        assert!(help.out.starts_with(&format!("shkembruq {command}")));
    }
}

#[test]
fn progress_only_if_asked_for() {
    let desk = Desk::new("progress");
    desk.put("t", &t_file());
    let line = "t: kind 0 filter 0 references 12 items 12\n";
    let counted = "0 of 2 files\n1 of 2 files\n2 of 2 files\n";
    desk.run("check --progress t t")
        .is(0, &line.repeat(2), counted);
    desk.run("check t t").is(0, &line.repeat(2), "");
}
