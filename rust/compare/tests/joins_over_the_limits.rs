//! Trees of joins whose sums are at a limit or over it: taken, or refused 13
//! where they go over it, by both libraries, with the lent buffer as it was.

use bindings::Proved;
use compare::report::{say, say_seen};
use compare::trees::Tree;
use compare::{Case, Judge, Random};
use reference::Reference;
use types::layout::{REFERENCES, encode, file_bytes};
use types::limits::{MOST_ITEMS, MOST_REFERENCES};
use types::{Header, Item, Library, Refusal};

const TREES: u64 = 2_000;

/// The most items of a file here, and the fewest references.
const FEW: u64 = 8;

/// A reduced file of items that are all alike.
fn file(kind: u64, references: u64, items: u64) -> Vec<u8> {
    let header = Header {
        kind,
        filter: 5,
        references,
        items,
    };
    encode(&header, &vec![Item::write(1, 9); items as usize])
}

/// Joins as the tree says, each join compared between the two libraries.
fn judged(judge: &mut Judge, tree: &Tree, files: &[Vec<u8>]) -> Result<Vec<u8>, Refusal> {
    tree.joined(files, &mut |first: &[u8], second: &[u8], out: &mut [u8]| {
        judge.insist(&Case::Join {
            first: first.to_vec(),
            second: second.to_vec(),
            out: out.to_vec(),
        });
        Reference.join(first, second, out)
    })
}

/// Files with so many references together, few items each.
fn files(random: &mut Random, together: u64) -> Vec<Vec<u8>> {
    let count = 3 + random.below(4);
    let mut cuts: Vec<u64> = (1..count)
        .map(|_| random.below(together - FEW * count))
        .collect();
    cuts.sort_unstable();
    cuts.push(together - FEW * count);
    let mut before = 0;
    cuts.into_iter()
        .map(|cut| {
            let references = FEW + cut - std::mem::replace(&mut before, cut);
            let (kind, items) = (1 + random.below(2), 1 + random.below(FEW));
            file(kind, references, items)
        })
        .collect()
}

/// Files whose references together are as many as there can be, or more.
fn near_the_limit(random: &mut Random) -> Vec<Vec<u8>> {
    let together = MOST_REFERENCES + random.below(2);
    let mut files = files(random, together);
    // With so many more a join within the tree can be refused as well.
    if random.once_in(3) {
        let more = file(2, FEW + random.below(MOST_REFERENCES / 2), FEW);
        files.insert(random.index(files.len() + 1), more);
    }
    files
}

#[test]
fn by_references() {
    let seed = Random::seed();
    let mut random = Random::new(seed ^ 11);
    let mut judge = Judge::new(&Proved, &Reference);
    let (mut at_the_limit, mut over, mut within) = (0, 0, 0);
    for _ in 0..TREES {
        let files = near_the_limit(&mut random);
        let together: u64 = files.iter().map(|file| REFERENCES.value(file)).sum();
        let tree = Tree::random(&mut random, 0..files.len());
        let before = judge.seen.cases;
        match judged(&mut judge, &tree, &files) {
            Ok(joined) => {
                assert_eq!(together, MOST_REFERENCES, "seed {seed} {tree:?}");
                assert_eq!(REFERENCES.value(&joined), together);
                at_the_limit += 1;
            }
            Err(refusal) => {
                assert_eq!(refusal, Refusal::new(13), "seed {seed} {tree:?}");
                assert!(together > MOST_REFERENCES, "seed {seed} {tree:?}");
                over += 1;
                within += u64::from(judge.seen.cases - before < tree.joins());
            }
        }
    }
    say_seen("trees over the limit by references", seed, &judge.seen);
    say(&format!(
        "of these: {at_the_limit} trees at the limit, {over} over it, {within} before the last join"
    ));
    assert_eq!(judge.seen.refused[13], over);
    assert_eq!(at_the_limit + over, TREES);
    assert!(at_the_limit > TREES / 6 && over > TREES / 3 && within > TREES / 50);
}

/// Exactly as many items as a file holds, and then one more.
#[test]
fn by_items() {
    let mut judge = Judge::new(&Proved, &Reference);
    let files = [
        file(1, 400_000, 400_000),
        file(2, 600_000, 600_000),
        file(1, 1, 1),
    ];
    let leaf = Tree::File;
    let left = Tree::join(leaf(0), leaf(1));
    let full = judged(&mut judge, &left, &files).expect("taken");
    assert_eq!(full.len(), file_bytes(MOST_ITEMS as usize));
    let right = Tree::join(leaf(1), leaf(2));
    for tree in [Tree::join(left, leaf(2)), Tree::join(leaf(0), right)] {
        assert_eq!(judged(&mut judge, &tree, &files), Err(Refusal::new(13)));
    }
    say_seen("trees over the limit by items", Random::seed(), &judge.seen);
    assert_eq!((judge.seen.taken, judge.seen.refused[13]), (3, 2));
}
