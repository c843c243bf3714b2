//! Which items of a trace write, and which frames of a start are written.

use crate::Random;
use types::Frame;

/// How many of a row do.
#[derive(Clone, Copy, Debug, PartialEq, Eq)]
pub enum Marks {
    None,
    ThreeInTen,
    All,
}

impl Marks {
    /// Mostly some: none and all are there because a fault in one of the two
    /// values of a mark can hide behind the other.
    pub fn random(random: &mut Random) -> Marks {
        match random.below(8) {
            0 => Marks::None,
            1 => Marks::All,
            _ => Marks::ThreeInTen,
        }
    }

    /// Whether the next one does.
    pub fn next(self, random: &mut Random) -> bool {
        match self {
            Marks::None => false,
            Marks::ThreeInTen => random.below(10) < 3,
            Marks::All => true,
        }
    }
}

/// These pages as the frames of a cache.
pub fn frames(random: &mut Random, pages: &[u64]) -> Vec<Frame> {
    let marks = Marks::random(random);
    let mut frame = |page: &u64| Frame {
        page: *page,
        written: marks.next(random),
    };
    pages.iter().map(&mut frame).collect()
}

#[cfg(test)]
mod tests {
    use super::*;

    #[test]
    fn none_some_and_all() {
        let mut random = Random::new(1);
        let mut count = |marks: Marks| (0..1000).filter(|_| marks.next(&mut random)).count();
        assert_eq!((count(Marks::None), count(Marks::All)), (0, 1000));
        assert!((250..350).contains(&count(Marks::ThreeInTen)));
    }

    /// All three come up, and some most.
    #[test]
    fn each_comes_up() {
        let mut random = Random::new(1);
        let drawn: Vec<Marks> = (0..800).map(|_| Marks::random(&mut random)).collect();
        let count = |of: Marks| drawn.iter().filter(|marks| **marks == of).count();
        assert!(count(Marks::None) > 50 && count(Marks::All) > 50);
        assert!(count(Marks::ThreeInTen) > 400);
    }
}
