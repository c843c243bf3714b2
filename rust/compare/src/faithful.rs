//! The promise on recordings as a check that answers what differed: a
//! recording's files are reduced and joined, and the joined file's replay is
//! held against LRU on the recording's own items, read from no file.

use crate::margins::with_margins;
use crate::recordings::{Portion, Recording};
use crate::starts::Start;
use reference::Run;
use types::layout::{HEADER_BYTES, ITEM_BYTES, file_bytes, whole};
use types::{Frame, Header, Library, NUMBERS_PER_EVENT, Refusal, Summary};

/// Where a library does not keep the promise.
#[derive(Clone, Debug, PartialEq, Eq)]
pub enum Difference {
    /// A call was refused that should be taken.
    Refused {
        call: &'static str,
        refusal: Refusal,
    },
    /// The two bracketings gave two files.
    Bracketing,
    Header {
        answered: Header,
        expected: Header,
    },
    /// The first fetch that is another or is missing.
    Fetch {
        number: usize,
    },
    Pages,
    /// The pages are the recording's, what is said of their being written is
    /// not.
    Marks,
    Tally {
        answered: Summary,
        expected: Summary,
    },
    /// Places were written that should keep what they had: a fetch too many,
    /// for one.
    Rest,
}

/// What a replay writes over, where it writes.
const UNWRITTEN: u64 = 0x0123_4567_89AB_CDEF;

/// Both halves of the check. Answers what the replay of the join counted.
pub fn check(
    library: &dyn Library,
    recording: &Recording,
    start: &Start,
) -> Result<Summary, Difference> {
    let joined = joined(library, recording)?;
    replays_as_recorded(library, recording, &joined, start)
}

/// Reduces each file and joins them: in both bracketings to the same bytes,
/// with the header that the recording's join has.
pub fn joined(library: &dyn Library, recording: &Recording) -> Result<Vec<u8>, Difference> {
    let reduced = |portion| reduced(library, recording, portion);
    let files: Vec<Vec<u8>> = recording
        .portions
        .iter()
        .map(reduced)
        .collect::<Result<_, _>>()?;
    let mut join = |first: &[u8], second: &[u8], out: &mut [u8]| {
        with_margins(out, |out| library.join(first, second, out))
    };
    let mut join_by = |tree: usize| {
        let joined = recording.trees[tree].joined(&files, &mut join);
        joined.map_err(|refusal| refused("join", refusal))
    };
    let (one, two) = (join_by(0)?, join_by(1)?);
    if one != two {
        return Err(Difference::Bracketing);
    }
    let answered = library.check(&one).map_err(|r| refused("check", r))?;
    let expected = Header {
        kind: recording.kind(),
        filter: recording.largest_filter(),
        references: recording.items.len() as u64,
        items: items_in(&one) as u64,
    };
    match answered == expected {
        true => Ok(one),
        false => Err(Difference::Header { answered, expected }),
    }
}

fn reduced(
    library: &dyn Library,
    recording: &Recording,
    portion: &Portion,
) -> Result<Vec<u8>, Difference> {
    let file = whole(&recording.items[portion.items.clone()]);
    let mut out = vec![0; file.len()];
    let answer = with_margins(&mut out, |out| {
        library.reduce(&file, portion.mode, portion.filter, out)
    });
    let header = answer.map_err(|refusal| refused("reduce", refusal))?;
    out.truncate(file_bytes(header.items as usize));
    Ok(out)
}

/// Replays the joined file, with room for its own fetches and not for more,
/// and holds that against LRU on the items of the whole recording.
pub fn replays_as_recorded(
    library: &dyn Library,
    recording: &Recording,
    joined: &[u8],
    start: &Start,
) -> Result<Summary, Difference> {
    let mut cache = start.frames.clone();
    cache.resize(start.size as usize, Frame::written(UNWRITTEN));
    let before = cache.clone();
    let mut events = vec![UNWRITTEN; NUMBERS_PER_EVENT * items_in(joined)];
    let answer = with_margins(&mut cache, |cache| {
        with_margins(&mut events, |events| {
            library.replay(joined, start.size, cache, start.frames.len(), events)
        })
    });
    let answered = answer.map_err(|(refusal, _)| refused("replay", refusal))?;
    let items = recording.items.iter().copied();
    let expected = reference::run(items, start.size as usize, &start.frames);
    same_fetches(&events, &expected)?;
    same_frames(&cache, &before, &expected)?;
    same_tally(answered, items_in(joined) as u64, &expected)
}

fn same_fetches(events: &[u64], expected: &Run) -> Result<(), Difference> {
    let written = expected.events.len().min(events.len());
    let (fetches, rest) = events.split_at(written);
    let mut pairs = fetches.iter().zip(&expected.events);
    let differs = pairs.position(|(one, two)| one != two);
    // There is no room for more fetches than the joined file has items.
    let missing = (expected.events.len() > written).then_some(written);
    if let Some(place) = differs.or(missing) {
        let number = place / NUMBERS_PER_EVENT;
        return Err(Difference::Fetch { number });
    }
    match rest.iter().all(|number| *number == UNWRITTEN) {
        true => Ok(()),
        false => Err(Difference::Rest),
    }
}

fn same_frames(cache: &[Frame], before: &[Frame], expected: &Run) -> Result<(), Difference> {
    let (frames, rest) = cache.split_at(expected.frames.len());
    let pages = |frames: &[Frame]| -> Vec<u64> { frames.iter().map(|frame| frame.page).collect() };
    if pages(frames) != pages(&expected.frames) {
        return Err(Difference::Pages);
    }
    if frames != expected.frames {
        return Err(Difference::Marks);
    }
    match rest == &before[frames.len()..] {
        true => Ok(()),
        false => Err(Difference::Rest),
    }
}

/// Items, and so the rate, are those of the joined file; all else that was
/// counted is the recording's.
fn same_tally(answered: Summary, items: u64, expected: &Run) -> Result<Summary, Difference> {
    let fetches = expected.summary.fetches;
    let expected = Summary {
        items,
        permillion: (fetches * 1_000_000).checked_div(items).unwrap_or(0),
        ..expected.summary
    };
    match answered == expected {
        true => Ok(answered),
        false => Err(Difference::Tally { answered, expected }),
    }
}

fn refused(call: &'static str, refusal: Refusal) -> Difference {
    Difference::Refused { call, refusal }
}

fn items_in(file: &[u8]) -> usize {
    (file.len() - HEADER_BYTES) / ITEM_BYTES
}
