//! Recordings: items, how they are cut into files, how each file is reduced,
//! and two ways to bracket the joins.

use crate::trees::Tree;
use crate::{Random, traces};
use std::ops::Range;
use types::Item;

const DEMAND: u64 = 2;
const MOST_FILES: u64 = 8;

/// One file of a recording.
#[derive(Clone, Debug)]
pub struct Portion {
    pub items: Range<usize>,
    pub mode: u64,
    pub filter: u64,
}

#[derive(Clone, Debug)]
pub struct Recording {
    pub items: Vec<Item>,
    pub portions: Vec<Portion>,
    pub trees: [Tree; 2],
}

impl Recording {
    /// So many items over the pages of a pool, cut and bracketed at random.
    pub fn random(random: &mut Random, pool: &[u64]) -> Recording {
        let count = length(random);
        let items = traces::items(random, pool, count);
        let portions = portions(random, count);
        let mut tree = || Tree::random(random, 0..portions.len());
        let trees = [tree(), tree()];
        Recording {
            items,
            portions,
            trees,
        }
    }

    pub fn largest_filter(&self) -> u64 {
        let filters = self.portions.iter().map(|portion| portion.filter);
        filters.max().expect("there is a file")
    }

    /// The kind of the joined file: no file is left whole.
    pub fn kind(&self) -> u64 {
        let modes = self.portions.iter().map(|portion| portion.mode);
        modes.max().expect("there is a file")
    }

    pub fn has_both_modes(&self) -> bool {
        self.kind() == DEMAND && self.portions.iter().any(|portion| portion.mode != DEMAND)
    }

    pub fn has_an_empty_file(&self) -> bool {
        self.portions.iter().any(|portion| portion.items.is_empty())
    }
}

/// Mostly short, so that there can be many; but with room for many epochs.
fn length(random: &mut Random) -> usize {
    let bound = match random.below(20) {
        0 => 4000,
        1..5 => 600,
        5..14 => 150,
        _ => 30,
    };
    random.index(bound)
}

/// Cuts anywhere. Two cuts in one place leave an empty file between them.
fn portions(random: &mut Random, count: usize) -> Vec<Portion> {
    let files = 1 + random.below(MOST_FILES);
    let mut ends: Vec<usize> = (1..files).map(|_| random.index(count + 1)).collect();
    ends.sort_unstable();
    ends.push(count);
    // One bound for all: with a large filter among them no cache could be
    // small, and little would be evicted.
    let largest = random.pick(&[1, 2, 3, 4, 5, 8, 8, 16, 40, 1024]);
    let mut start = 0;
    ends.into_iter()
        .map(|end| Portion {
            items: std::mem::replace(&mut start, end)..end,
            mode: 1 + random.below(2),
            filter: 1 + random.below(largest),
        })
        .collect()
}
