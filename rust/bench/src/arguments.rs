//! What the words of the command ask for.

#[derive(Clone, Copy, Debug, PartialEq, Eq)]
pub enum Part {
    Reduce,
    Replay,
    Growth,
    Hostile,
}

/// The parts in the order in which they are run without a word.
const PARTS: [(&str, Part); 4] = [
    ("reduce", Part::Reduce),
    ("replay", Part::Replay),
    ("growth", Part::Growth),
    ("hostile", Part::Hostile),
];

#[derive(Debug, PartialEq, Eq)]
pub struct Wanted {
    pub parts: Vec<Part>,
    pub quick: bool,
}

impl Wanted {
    /// None if a word says nothing.
    pub fn read(words: &[String]) -> Option<Wanted> {
        let mut wanted = Wanted {
            parts: Vec::new(),
            quick: false,
        };
        for word in words {
            match PARTS.iter().find(|(name, _)| name == word) {
                Some((_, part)) => wanted.parts.push(*part),
                None if word == "--quick" => wanted.quick = true,
                None => return None,
            }
        }
        if wanted.parts.is_empty() {
            wanted.parts = PARTS.map(|(_, part)| part).to_vec();
        }
        Some(wanted)
    }
}

#[cfg(test)]
mod tests {
    use super::*;

    fn read(line: &str) -> Option<Wanted> {
        let words: Vec<String> = line.split_whitespace().map(String::from).collect();
        Wanted::read(&words)
    }

    #[test]
    fn no_part_is_all_parts() {
        let all = read("--quick").expect("taken");
        assert_eq!((all.parts.len(), all.quick), (4, true));
        assert!(!read("").expect("taken").quick);
    }

    #[test]
    fn one_part_and_two() {
        let one = read("replay").expect("taken");
        assert_eq!((one.parts, one.quick), (vec![Part::Replay], false));
        let two = read("growth --quick reduce").expect("taken");
        assert_eq!(two.parts, [Part::Growth, Part::Reduce]);
    }

    #[test]
    fn other_words_are_refused() {
        assert_eq!(read("replays"), None);
        assert_eq!(read("replay --fast"), None);
    }
}
