//! What is measured. Where a function has several ways to go it is called
//! several times, and the deepest call is told.

use crate::inputs::{self, faulty, reduced};
use crate::library::{Measured, check, join, reduce, replay};
#[cfg(target_arch = "x86_64")]
use crate::programs;
use types::layout::whole;
use types::limits::{LARGEST_CACHE, LARGEST_FILTER};
use types::{Frame, NUMBERS_PER_EVENT};

pub struct Figure {
    pub name: String,
    /// Bytes of stack below the caller's frame.
    pub depth: usize,
}

const TAKEN: u64 = 0;

const FASTSLIM: u64 = 1;
const DEMAND: u64 = 2;
const NO_MODE: u64 = 3;

/// The deepest of these calls. Each has with it the refusal that is expected:
/// a call that ends otherwise is not the one to be measured.
fn deepest(name: &str, calls: &[(u64, Measured)]) -> Result<Figure, String> {
    if let Some((expected, call)) = calls.iter().find(|(number, call)| call.refusal != *number) {
        return Err(format!("{name}: {call:?}, expected refusal {expected}"));
    }
    let depth = calls.iter().map(|(_, call)| call.depth).max();
    Ok(Figure {
        name: name.to_string(),
        depth: depth.unwrap_or(0),
    })
}

pub fn of_reduce() -> Result<Vec<Figure>, String> {
    let mut figures = of_reduce_with(LARGEST_FILTER)?;
    figures.push(of_reduce_refused()?);
    Ok(figures)
}

/// Reductions with a filter of this size, in both modes.
pub fn of_reduce_with(filter: u64) -> Result<Vec<Figure>, String> {
    let files = inputs::all().map(|items| whole(&items));
    let call = |file: &Vec<u8>, mode| reduce(file, mode, filter, &mut vec![0; file.len()]);
    [("fastslim", FASTSLIM), ("demand", DEMAND)]
        .into_iter()
        .map(|(word, mode)| {
            let name = format!("shkembruq_reduce {word} B={filter}");
            deepest(
                &name,
                &files.each_ref().map(|file| (TAKEN, call(file, mode))),
            )
        })
        .collect()
}

fn of_reduce_refused() -> Result<Figure, String> {
    let call = |file: &[u8], mode| reduce(file, mode, LARGEST_FILTER, &mut vec![0; file.len()]);
    let items = inputs::mixed();
    let file = whole(&items);
    let refused = [
        (4, call(&faulty(&items), FASTSLIM)),
        (7, call(&file, NO_MODE)),
        (8, call(&reduced(&items), DEMAND)),
        (11, reduce(&file, DEMAND, LARGEST_FILTER, &mut [])),
    ];
    deepest("shkembruq_reduce refused", &refused)
}

pub fn of_check() -> Result<Vec<Figure>, String> {
    let items = inputs::mixed();
    let refused = [(1, check(&[])), (4, check(&faulty(&items)))];
    Ok(vec![
        deepest("shkembruq_check", &[(TAKEN, check(&whole(&items)))])?,
        deepest("shkembruq_check refused", &refused)?,
    ])
}

pub fn of_join() -> Result<Vec<Figure>, String> {
    let items = inputs::mixed();
    let (first, second) = items.split_at(items.len() / 2);
    let mut out = vec![0; whole(&items).len()];
    let taken = join(&whole(first), &reduced(second), &mut out);
    let refused = [
        (4, join(&whole(first), &faulty(second), &mut out)),
        (11, join(&whole(first), &whole(second), &mut [])),
    ];
    Ok(vec![
        deepest("shkembruq_join", &[(TAKEN, taken)])?,
        deepest("shkembruq_join refused", &refused)?,
    ])
}

pub fn of_replay() -> Result<Vec<Figure>, String> {
    let items = inputs::mixed();
    let places = LARGEST_CACHE as usize;
    let call = |file: &[u8], resident, room| {
        let mut cache: Vec<Frame> = (0..LARGEST_CACHE).map(Frame::written).collect();
        let mut events = vec![0; room];
        replay(file, LARGEST_CACHE, &mut cache, resident, &mut events)
    };
    let (file, room) = (whole(&items), NUMBERS_PER_EVENT * items.len());
    let refused = [
        (4, call(&faulty(&items), 0, room)),
        (10, call(&file, places + 1, room)),
        (11, call(&file, places, room - 1)),
    ];
    Ok(vec![
        deepest(
            "shkembruq_replay K=4096 empty start",
            &[(TAKEN, call(&file, 0, room))],
        )?,
        deepest(
            "shkembruq_replay K=4096 full start",
            &[(TAKEN, call(&file, places, room))],
        )?,
        deepest("shkembruq_replay refused", &refused)?,
    ])
}

/// A program that is refused by its settings writes one line.
#[cfg(target_arch = "x86_64")]
pub fn of_programs() -> Result<Vec<Figure>, String> {
    let [filter, cache] = [LARGEST_FILTER, LARGEST_CACHE].map(u64::to_le_bytes);
    let reduce = |mode: u64| [17, 3, 0, mode as u8, filter[0], filter[1]];
    [
        (
            "program reduce fastslim B=1024",
            "reduce",
            &reduce(FASTSLIM)[..],
        ),
        ("program reduce demand B=1024", "reduce", &reduce(DEMAND)),
        ("program reduce refused", "reduce", &reduce(NO_MODE)),
        (
            "program replay K=4096",
            "replay",
            &[16, 2, 0, cache[0], cache[1]],
        ),
        ("program replay refused", "replay", &[16, 2, 0, 0, 0]),
    ]
    .into_iter()
    .map(|(name, program, settings)| {
        let input = [settings, &inputs::for_programs()].concat();
        let run = programs::measured(program, &input)?;
        match run.output.starts_with(b"refused") == name.ends_with("refused") {
            true => Ok(Figure {
                name: name.to_string(),
                depth: run.depth,
            }),
            false => Err(format!("{name}: wrote something else")),
        }
    })
    .collect()
}
