//! Says what a test has done, also when it passes.

use crate::judge::{Evicted, Seen};
use std::io::Write;

/// Writes past the test harness, which keeps what passing tests print.
pub fn say(line: &str) {
    let _ = writeln!(std::io::stderr(), "{line}");
}

pub fn say_seen(test: &str, seed: u64, seen: &Seen) {
    let refused: Vec<String> = (0..)
        .zip(&seen.refused)
        .filter(|(_, count)| **count > 0)
        .map(|(number, count)| format!("{number}: {count}"))
        .collect();
    say(&format!(
        "{test}: seed {seed}, {} cases, taken {}, refused {}{}",
        seen.cases,
        seen.taken,
        refused.join(", "),
        evicted(&seen.evicted)
    ));
}

/// Of what was replayed, if anything was.
fn evicted(of: &Evicted) -> String {
    match *of == Evicted::default() {
        true => String::new(),
        false => format!(
            "; evicted nothing {}, page 0 {}, the last page {}",
            of.nothing, of.page_0, of.last_page
        ),
    }
}
