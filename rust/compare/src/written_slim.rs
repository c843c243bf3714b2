//! The marks of a reduction as the rule has them, epoch by epoch, with one
//! fault or none. Which items are kept is the reference's to say.

use crate::written_faults::WriteFault::{self, *};
use std::collections::{HashMap, HashSet};
use types::Item;

const FASTSLIM: u64 = 1;

/// Where a page's items stand in an epoch.
#[derive(Default)]
struct Places {
    kept: Vec<usize>,
    dropped_writes: Vec<usize>,
}

/// One epoch: its items, and for each whether it is kept and in which phase it
/// stands.
struct Epoch<'a> {
    items: &'a [Item],
    kept: Vec<bool>,
    phase: Vec<usize>,
}

/// The items that a reduction keeps, with their marks.
pub fn kept(items: &[Item], mode: u64, filter: usize, fault: Option<WriteFault>) -> Vec<Item> {
    let mut row = Vec::new();
    let mut marked_before = HashSet::new();
    let mut rest = items;
    while !rest.is_empty() {
        let (items, after) = rest.split_at(epoch_length(rest, filter));
        let epoch = Epoch::new(items, mode);
        let marked = epoch.marked(fault, &marked_before);
        let item = |place: &usize| Item {
            written: marked.contains(place)
                || items[*place].written && fault != Some(ForgetsKeptWrites),
            ..items[*place]
        };
        let places = 0..items.len();
        row.extend(
            places
                .filter(|place| epoch.kept[*place])
                .map(|place| item(&place)),
        );
        marked_before = marked.iter().map(|place| items[*place].page).collect();
        rest = after;
    }
    row
}

/// The longest stretch with at most so many pages.
fn epoch_length(items: &[Item], filter: usize) -> usize {
    let mut pages = HashSet::new();
    let is_beyond = |item: &Item| {
        pages.insert(item.page);
        pages.len() > filter
    };
    items.iter().position(is_beyond).unwrap_or(items.len())
}

impl Epoch<'_> {
    fn new(items: &[Item], mode: u64) -> Epoch<'_> {
        let mut pages = HashSet::new();
        let first: Vec<bool> = items.iter().map(|item| pages.insert(item.page)).collect();
        let mut phases = 0;
        let phase: Vec<usize> = first
            .iter()
            .map(|is_first| {
                phases += usize::from(*is_first);
                phases
            })
            .collect();
        let mut later = HashSet::new();
        let mut kept = first;
        for (place, item) in items.iter().enumerate().rev() {
            let stretch = if mode == FASTSLIM { phase[place] } else { 0 };
            kept[place] |= later.insert((stretch, item.page));
        }
        Epoch { items, kept, phase }
    }

    /// For each page, where it is kept and where a write of it is dropped.
    fn pages(&self) -> HashMap<u64, Places> {
        let mut pages: HashMap<u64, Places> = HashMap::new();
        for (place, item) in self.items.iter().enumerate() {
            let of_page = pages.entry(item.page).or_default();
            match self.kept[place] {
                true => of_page.kept.push(place),
                false if item.written => of_page.dropped_writes.push(place),
                false => {}
            }
        }
        pages
    }

    /// The places of the items that become writes.
    fn marked(&self, fault: Option<WriteFault>, before: &HashSet<u64>) -> HashSet<usize> {
        let last_of_all = self.items.len() - 1;
        let mut marked = HashSet::new();
        for (
            page,
            Places {
                kept,
                dropped_writes,
            },
        ) in self.pages()
        {
            let last = kept[kept.len() - 1];
            let is_marked = !dropped_writes.is_empty();
            let same_phase = |place: &usize| self.phase[*place] == self.phase[last];
            match fault {
                Some(ForgetsDroppedWrites) => {}
                Some(MarksTheFirstKept) if is_marked => drop(marked.insert(kept[0])),
                Some(MarksTheLastOfTheEpoch) if is_marked => drop(marked.insert(last_of_all)),
                Some(MarksTheLastOfItsPhase) => {
                    marked.extend(
                        dropped_writes
                            .iter()
                            .map(|place| self.next_kept(&kept, *place)),
                    );
                }
                Some(LosesTheMarkOverAPhase) if !dropped_writes.iter().any(same_phase) => {}
                Some(MarksForKeptWrites) if kept.iter().any(|place| self.items[*place].written) => {
                    marked.insert(last);
                }
                Some(CarriesTheMarkOverAnEpoch) if before.contains(&page) => {
                    marked.insert(last);
                }
                _ if is_marked => drop(marked.insert(last)),
                _ => {}
            }
        }
        marked
    }

    /// The next of these places after a dropped item: the last of its stretch.
    fn next_kept(&self, kept: &[usize], dropped: usize) -> usize {
        let after = kept.iter().find(|place| **place > dropped);
        *after.expect("the last of its page is kept")
    }
}

#[cfg(test)]
mod tests {
    use super::*;

    fn row(words: &str) -> Vec<Item> {
        let item = |(word, time): (&str, u64)| Item {
            page: word.trim_end_matches('w').parse().expect("a page"),
            time,
            written: word.ends_with('w'),
        };
        words.split(' ').zip(1..).map(item).collect()
    }

    fn told(words: &str, fault: Option<WriteFault>) -> String {
        let told = |item: Item| format!("{}{}", item.time, if item.written { "w" } else { "" });
        let row: Vec<String> = kept(&row(words), FASTSLIM, 2, fault)
            .into_iter()
            .map(told)
            .collect();
        row.join(" ")
    }

    /// Each fault by hand, on a page that is dropped written in its first
    /// phase, kept twice after that, and comes again in the next epoch.
    #[test]
    fn each_fault_by_hand() {
        let words = "1 1w 1 2w 1 2 3 1";
        for (fault, expected) in [
            (None, "1 3 4w 5w 6 7 8"),
            (Some(ForgetsDroppedWrites), "1 3 4w 5 6 7 8"),
            (Some(ForgetsKeptWrites), "1 3 4 5w 6 7 8"),
            (Some(MarksTheFirstKept), "1w 3 4w 5 6 7 8"),
            (Some(MarksTheLastOfItsPhase), "1 3w 4w 5 6 7 8"),
            (Some(MarksTheLastOfTheEpoch), "1 3 4w 5 6w 7 8"),
            (Some(LosesTheMarkOverAPhase), "1 3 4w 5 6 7 8"),
            (Some(MarksForKeptWrites), "1 3 4w 5w 6w 7 8"),
            (Some(CarriesTheMarkOverAnEpoch), "1 3 4w 5w 6 7 8w"),
        ] {
            assert_eq!(told(words, fault), expected, "{fault:?}");
        }
    }
}
