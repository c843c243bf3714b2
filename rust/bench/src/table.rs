//! The tables of results: the proved library, then each of its counterparts
//! with the ratio to it.

use crate::job::Job;
use crate::traces::Trace;
use std::env::consts::ARCH;
use std::io::Write;
use std::time::Duration;

/// The counterparts of a table.
pub const REFERENCE: [&str; 1] = ["reference"];
pub const BOTH: [&str; 2] = ["reference", "std"];

/// What a figure is of.
#[derive(Clone, Copy)]
pub enum Unit {
    Item,
    Call,
}

impl Unit {
    fn name(self) -> &'static str {
        match self {
            Unit::Item => "ns/item",
            Unit::Call => "µs/call",
        }
    }

    fn figure(self, trace: &Trace, time: Duration) -> f64 {
        let nanos = time.as_nanos() as f64;
        match self {
            Unit::Item => nanos / trace.items as f64,
            Unit::Call => nanos / 1_000.0,
        }
    }
}

/// The names of the columns, with the machine's, after an empty line.
pub fn head(unit: Unit, counterparts: &[&str]) {
    let unit = unit.name();
    let (trace, proved) = (format!("trace, on {ARCH}"), format!("proved {unit}"));
    print!("\n{trace:<20} {:<24} {proved:>14}", "call");
    for (number, name) in counterparts.iter().enumerate() {
        let ratio = match number {
            0 => "ratio".to_string(),
            _ => format!("ratio to {name}"),
        };
        print!(" {:>17} {ratio:>12}", format!("{name} {unit}"));
    }
    println!();
}

/// The proved library's time, then those of the counterparts.
pub fn line(unit: Unit, trace: &Trace, job: &Job, times: &[Duration]) {
    let figures: Vec<f64> = times.iter().map(|time| unit.figure(trace, *time)).collect();
    let (name, call, proved) = (&trace.name, job.name(), figures[0]);
    print!("{name:<20} {call:<24} {proved:>14.2}");
    for counterpart in &figures[1..] {
        print!(" {counterpart:>17.2} {:>12.2}", proved / counterpart);
    }
    println!();
    // A line takes a while; show it as soon as it is there.
    let _ = std::io::stdout().flush();
}
