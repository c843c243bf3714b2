//! Compares two implementations call by call and keeps count.

use crate::Case;
use crate::case::Answer;
use types::event::NOTHING;
use types::layout::file_bytes;
use types::{Library, NUMBERS_PER_EVENT};

/// The refusals of the library that can occur.
pub const REFUSALS: [usize; 12] = [1, 2, 3, 4, 6, 7, 8, 9, 10, 11, 12, 13];

/// The numbers that none has: 5 is withdrawn, 14 never occurs, and the table
/// ends there.
pub const NEVER: [usize; 4] = [5, 14, 15, 16];

#[derive(Default)]
pub struct Seen {
    pub cases: u64,
    pub taken: u64,
    pub refused: [u64; 17],
    pub evicted: Evicted,
}

/// What the fetches of replays evicted, where that is easily mistaken.
#[derive(Clone, Copy, Debug, Default, PartialEq, Eq)]
pub struct Evicted {
    pub nothing: u64,
    pub page_0: u64,
    pub last_page: u64,
}

impl Evicted {
    /// The fourth number says whether something was, the third which page.
    fn count(&mut self, events: &[u64]) {
        for [_, _, page, what] in events.as_chunks::<NUMBERS_PER_EVENT>().0 {
            match (*what, *page) {
                (NOTHING, _) => self.nothing += 1,
                (_, 0) => self.page_0 += 1,
                (_, u64::MAX) => self.last_page += 1,
                _ => {}
            }
        }
    }
}

impl Seen {
    /// Each refusal that can occur, and no other.
    pub fn insist_on_all_refusals(&self) {
        for number in REFUSALS {
            assert!(self.refused[number] > 0, "refusal {number} not seen");
        }
        self.insist_on_the_table();
    }

    /// No number that none of the refusals has.
    pub fn insist_on_the_table(&self) {
        for number in NEVER {
            assert_eq!(self.refused[number], 0, "refusal {number} seen");
        }
    }
}

pub struct Judge<'a> {
    tried: &'a dyn Library,
    trusted: &'a dyn Library,
    pub seen: Seen,
}

impl<'a> Judge<'a> {
    pub fn new(tried: &'a dyn Library, trusted: &'a dyn Library) -> Self {
        Judge {
            tried,
            trusted,
            seen: Seen::default(),
        }
    }

    /// Makes the call with both; an error describes the first difference.
    pub fn judge(&mut self, case: &Case) -> Result<(), String> {
        let (mut tried, mut trusted) = (case.clone(), case.clone());
        let answer = tried.run(self.tried);
        let expected = trusted.run(self.trusted);
        let number = self.seen.cases;
        self.count(&expected, &trusted);
        let fault = if answer != expected {
            format!("answers {answer:?} and not {expected:?}")
        } else if tried.outputs() != trusted.outputs() {
            format!("answers {answer:?} but leaves another buffer")
        } else if tried.inputs() != case.inputs() {
            "changes its input".to_string()
        } else if !keeps_the_rest(case, &tried, &answer) {
            format!("answers {answer:?} but changes what it should keep")
        } else {
            return Ok(());
        };
        Err(format!("case {number}: {fault}: {case:?}"))
    }

    /// As above, for tests: a difference ends the test.
    pub fn insist(&mut self, case: &Case) {
        if let Err(difference) = self.judge(case) {
            panic!("seed {}: {difference}", crate::Random::seed());
        }
    }

    fn count(&mut self, answer: &Answer, after: &Case) {
        self.seen.cases += 1;
        if let Answer::Summary(Ok(summary)) = answer {
            let fetched = NUMBERS_PER_EVENT * summary.fetches as usize;
            self.seen.evicted.count(&after.outputs().2[..fetched]);
        }
        match answer.refusal() {
            None => self.seen.taken += 1,
            Some(refusal) => self.seen.refused[refusal.number as usize] += 1,
        }
    }
}

/// Places beyond what was written are as they were; on a refusal, all are.
/// Said here once more, so that it does not hang on the trusted side.
fn keeps_the_rest(before: &Case, after: &Case, answer: &Answer) -> bool {
    let (bytes, cache, events) = match answer {
        Answer::Header(Ok(header)) => (file_bytes(header.items as usize), 0, 0),
        Answer::Summary(Ok(summary)) => {
            let events = NUMBERS_PER_EVENT * summary.fetches as usize;
            (0, summary.resident as usize, events)
        }
        _ => (0, 0, 0),
    };
    let (old, new) = (before.outputs(), after.outputs());
    // A check writes nothing, so there may be less than a file's bytes.
    beyond(old.0, bytes) == beyond(new.0, bytes)
        && beyond(old.1, cache) == beyond(new.1, cache)
        && beyond(old.2, events) == beyond(new.2, events)
}

fn beyond<T>(row: &[T], written: usize) -> &[T] {
    &row[written.min(row.len())..]
}
