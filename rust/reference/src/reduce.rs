//! The two reductions.

use crate::check::{check, item_rows, items};
use crate::page_map::PageMap;
use types::layout::{HEADER_BYTES, ITEM_BYTES, WRITE_TAG, file_bytes, put_header};
use types::limits::LARGEST_FILTER;
use types::{Header, Refusal};

const FASTSLIM: u64 = 1;
const DEMAND: u64 = 2;

/// Writes the reduction of a whole trace file and answers its header values.
pub fn reduce(file: &[u8], mode: u64, filter: u64, out: &mut [u8]) -> Result<Header, Refusal> {
    let whole = check(file)?;
    if !(mode == FASTSLIM || mode == DEMAND) || !(1..=LARGEST_FILTER).contains(&filter) {
        return Err(Refusal::new(7));
    }
    if whole.kind != 0 {
        return Err(Refusal::new(8));
    }
    if out.len() < file.len() {
        return Err(Refusal::new(11));
    }
    let fates = fates(file, mode, filter as usize);
    if a_time_falls(file, &fates) {
        return Err(Refusal::new(14));
    }
    let header = Header {
        kind: mode,
        filter,
        references: whole.references,
        items: fates.iter().filter(|fate| fate.is_kept()).count() as u64,
    };
    write(file, &fates, &header, out);
    Ok(header)
}

/// What becomes of an item.
#[derive(Clone, Copy, PartialEq)]
enum Fate {
    Dropped,
    Kept,
    /// Kept, and a write whether it was one or not.
    Marked,
}

impl Fate {
    fn is_kept(self) -> bool {
        self != Fate::Dropped
    }
}

/// Where a page of the running epoch was met, and what was written there.
struct Met {
    first: usize,
    last: usize,
    last_is_write: bool,
    has_dropped_a_write: bool,
}

type Epoch = PageMap<Met>;

/// For each item, what the reduction does with it.
///
/// An item is dropped exactly if it is not the first of its page in its epoch
/// and its page comes again in the same stretch: the epoch for
/// FastSlim-Demand, the phase for FastSlim. So nothing is decided at the end
/// of a stretch. Only which item is the last of its page, and so carries the
/// writes that were dropped, is known no sooner than at the end of an epoch.
fn fates(file: &[u8], mode: u64, filter: usize) -> Vec<Fate> {
    let mut fates = vec![Fate::Kept; item_rows(file).len()];
    let mut epoch = Epoch::default();
    let mut stretch_start = 0;
    for (here, item) in items(file).enumerate() {
        if let Some(met) = epoch.get_mut(&item.page) {
            if met.last >= stretch_start && met.last != met.first {
                fates[met.last] = Fate::Dropped;
                met.has_dropped_a_write |= met.last_is_write;
            }
            (met.last, met.last_is_write) = (here, item.written);
            continue;
        }
        let epoch_is_full = epoch.len() == filter;
        if epoch_is_full {
            mark_lasts(&epoch, &mut fates);
            epoch.clear();
        }
        if epoch_is_full || mode == FASTSLIM {
            stretch_start = here;
        }
        let met = Met {
            first: here,
            last: here,
            last_is_write: item.written,
            has_dropped_a_write: false,
        };
        epoch.insert(item.page, met);
    }
    mark_lasts(&epoch, &mut fates);
    fates
}

/// At the end of an epoch. The last item of a page there is kept in both
/// modes, since nothing of that page comes after it in its stretch.
fn mark_lasts(epoch: &Epoch, fates: &mut [Fate]) {
    for met in epoch.values().filter(|met| met.has_dropped_a_write) {
        fates[met.last] = Fate::Marked;
    }
}

/// Refusal 14. It can never occur: the checker has refused every file whose
/// times fall, and leaving items out of a row that never falls leaves a row
/// that never falls. It is looked for because the table names it.
fn a_time_falls(file: &[u8], fates: &[Fate]) -> bool {
    let mut before = 0;
    items(file)
        .zip(fates)
        .filter(|(_, fate)| fate.is_kept())
        .any(|(item, _)| {
            let falls = item.time < before;
            before = item.time;
            falls
        })
}

fn write(file: &[u8], fates: &[Fate], header: &Header, out: &mut [u8]) {
    let out = &mut out[..file_bytes(header.items as usize)];
    put_header(out, header);
    let (places, _) = out[HEADER_BYTES..].as_chunks_mut::<ITEM_BYTES>();
    let rows = item_rows(file).iter().zip(fates);
    let kept = rows.filter(|(_, fate)| fate.is_kept());
    for (place, (row, fate)) in places.iter_mut().zip(kept) {
        *place = *row;
        if *fate == Fate::Marked {
            place[0] = WRITE_TAG;
        }
    }
}
