//! Trees of joins: files in their order, bracketed in any way.

use crate::Random;
use std::fmt;
use std::ops::Range;
use types::layout::{HEADER_BYTES, file_bytes};
use types::{Header, Refusal};

#[derive(Clone, PartialEq, Eq)]
pub enum Tree {
    /// A file by its number.
    File(usize),
    Join(Box<Tree>, Box<Tree>),
}

impl Tree {
    /// A random bracketing of the files with these numbers, at least one.
    pub fn random(random: &mut Random, files: Range<usize>) -> Tree {
        if files.len() == 1 {
            return Tree::File(files.start);
        }
        // The edges often, so that long one-sided trees occur as well.
        let seam = match random.below(4) {
            0 => files.start + 1,
            1 => files.end - 1,
            _ => files.start + 1 + random.index(files.len() - 1),
        };
        let first = Tree::random(random, files.start..seam);
        Tree::join(first, Tree::random(random, seam..files.end))
    }

    pub fn join(first: Tree, second: Tree) -> Tree {
        Tree::Join(Box::new(first), Box::new(second))
    }

    /// How many joins lie on the longest way down.
    pub fn depth(&self) -> u64 {
        match self {
            Tree::File(_) => 0,
            Tree::Join(first, second) => 1 + first.depth().max(second.depth()),
        }
    }

    pub fn joins(&self) -> u64 {
        match self {
            Tree::File(_) => 0,
            Tree::Join(first, second) => 1 + first.joins() + second.joins(),
        }
    }

    /// The joined file, each join made with `join`. The first refusal ends it.
    pub fn joined(&self, files: &[Vec<u8>], join: &mut Joining<'_>) -> Result<Vec<u8>, Refusal> {
        let (first, second) = match self {
            Tree::File(number) => return Ok(files[*number].clone()),
            Tree::Join(first, second) => (first, second),
        };
        let first = first.joined(files, join)?;
        let second = second.joined(files, join)?;
        // Room for the joined file and no more.
        let mut out = vec![UNWRITTEN; first.len() + second.len() - HEADER_BYTES];
        let header = join(&first, &second, &mut out)?;
        out.truncate(file_bytes(header.items as usize));
        Ok(out)
    }
}

/// How two files are joined: a library's join, or one that is looked at.
pub type Joining<'a> = dyn FnMut(&[u8], &[u8], &mut [u8]) -> Result<Header, Refusal> + 'a;

/// What stands in a buffer before a join: no file starts with it.
const UNWRITTEN: u8 = 0xA5;

/// `((0 1) 2)` and the like.
impl fmt::Debug for Tree {
    fn fmt(&self, f: &mut fmt::Formatter<'_>) -> fmt::Result {
        match self {
            Tree::File(number) => write!(f, "{number}"),
            Tree::Join(first, second) => write!(f, "({first:?} {second:?})"),
        }
    }
}

#[cfg(test)]
mod tests {
    use super::*;

    fn left_comb(files: usize) -> Tree {
        (1..files).map(Tree::File).fold(Tree::File(0), Tree::join)
    }

    #[test]
    fn depth_and_joins() {
        let pairs = Tree::join(left_comb(2), Tree::join(Tree::File(2), Tree::File(3)));
        assert_eq!((pairs.depth(), pairs.joins()), (2, 3));
        assert_eq!((left_comb(4).depth(), left_comb(4).joins()), (3, 3));
        assert_eq!(format!("{pairs:?}"), "((0 1) (2 3))");
        assert_eq!(format!("{:?}", left_comb(4)), "(((0 1) 2) 3)");
    }

    /// All five bracketings of four files come up, and none has another order.
    #[test]
    fn every_bracketing_comes_up() {
        let mut random = Random::new(1);
        let mut seen: Vec<String> = (0..200)
            .map(|_| format!("{:?}", Tree::random(&mut random, 0..4)))
            .collect();
        seen.sort();
        seen.dedup();
        let digits = |text: &String| text.replace(['(', ')', ' '], "");
        assert!(seen.iter().all(|text| digits(text) == "0123"));
        assert_eq!(seen.len(), 5, "{seen:?}");
    }
}
