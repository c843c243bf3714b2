//! Libraries whose reducer finds pages by chains, with one fault in them or
//! none. Most of the faults do nothing to a short plain trace.

use crate::chains::Filter;
pub use crate::chains::{ALL, FilterFault, Met};
use crate::faulty::rewrite;
use reference::Reference;
use types::{Frame, Header, Item, Library, Refusal, Summary};

const FASTSLIM: u64 = 1;

/// The reference with another reducer.
pub struct FaultyFilter(pub Option<FilterFault>);

impl Library for FaultyFilter {
    fn check(&self, file: &[u8]) -> Result<Header, Refusal> {
        Reference.check(file)
    }

    fn reduce(
        &self,
        file: &[u8],
        mode: u64,
        filter: u64,
        out: &mut [u8],
    ) -> Result<Header, Refusal> {
        let before = out.to_vec();
        let header = Reference.reduce(file, mode, filter, out)?;
        let items: Vec<Item> = reference::items(file).collect();
        let (kept, _) = kept_items(&items, mode, filter as usize, self.0);
        Ok(rewrite(header, &kept, &before, out))
    }

    fn join(&self, first: &[u8], second: &[u8], out: &mut [u8]) -> Result<Header, Refusal> {
        Reference.join(first, second, out)
    }

    fn replay(
        &self,
        file: &[u8],
        size: u64,
        cache: &mut [Frame],
        resident: usize,
        events: &mut [u64],
    ) -> Result<Summary, (Refusal, u64)> {
        Reference.replay(file, size, cache, resident, events)
    }
}

/// What a filter without a fault meets in a reduction of these items. It is
/// the same in both modes.
pub fn met(items: &[Item], size: u64) -> Met {
    kept_items(items, FASTSLIM, size as usize, None).1
}

/// The items that are kept, by the rule of the reference: dropped is what is
/// not the first of its page in its epoch and comes again in its stretch. The
/// last of its page in an epoch is a write if one that was dropped there was.
fn kept_items(
    items: &[Item],
    mode: u64,
    size: usize,
    fault: Option<FilterFault>,
) -> (Vec<Item>, Met) {
    let mut kept: Vec<Option<Item>> = items.iter().copied().map(Some).collect();
    let mut filter = Filter::new(items, fault);
    let mut stretch_start = 0;
    for here in 0..items.len() {
        if let Some(place) = filter.find(here) {
            let (first, last) = filter.meet(place, here);
            if last >= stretch_start && last != first {
                kept[last] = None;
                filter.note_dropped(place, items[last]);
            }
            continue;
        }
        let is_full = filter.is_full(size);
        if is_full {
            mark(&filter, &mut kept);
            filter.empty();
        }
        if is_full || mode == FASTSLIM {
            stretch_start = here;
        }
        filter.add(here);
    }
    mark(&filter, &mut kept);
    (kept.into_iter().flatten().collect(), filter.met)
}

/// At the end of an epoch. Where a fault has dropped the last item there is
/// nothing to mark.
fn mark(filter: &Filter, kept: &mut [Option<Item>]) {
    for last in filter.lasts_to_mark() {
        if let Some(item) = &mut kept[last] {
            item.written = true;
        }
    }
}
