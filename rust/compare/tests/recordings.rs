//! Recordings cut anywhere into whole files, each reduced in either mode with
//! its own filter, joined in any bracketing: the replay of the join does what
//! LRU does on the recording itself.

use bindings::Proved;
use compare::faithful::{Difference, check};
use compare::faulty::{Fault, Faulty};
use compare::recordings::Recording;
use compare::report::say;
use compare::starts::Start;
use compare::{Random, traces};
use reference::Reference;
use types::{Frame, Library, Summary};

const RECORDINGS: u64 = 10_000;

/// Far fewer than the round has, so that the round is sure to find them.
const RECORDINGS_FOR_FAULTS: u64 = 500;

fn any(random: &mut Random) -> (Recording, Start) {
    let pages = traces::pages(random);
    let pool = traces::pool(random, pages);
    let recording = Recording::random(random, &pool);
    let start = Start::random(random, recording.largest_filter(), &pool);
    (recording, start)
}

/// What a round has met: without these it would have shown nothing.
#[derive(Debug, Default)]
struct Met {
    recordings: u64,
    references: u64,
    kept: u64,
    shorter: u64,
    fetches: u64,
    evictions: u64,
    joins: u64,
    deeper_than_2: u64,
    bracketed_in_two_ways: u64,
    both_modes: u64,
    with_an_empty_file: u64,
    from_pages: u64,
    from_written_pages: u64,
    with_reads_and_writes: u64,
    with_page_0: u64,
    with_the_last_page: u64,
    from_page_0: u64,
    from_the_last_page: u64,
}

impl Met {
    fn count(&mut self, recording: &Recording, start: &Start, replayed: &Summary) {
        let references = recording.items.len() as u64;
        let [one, two] = &recording.trees;
        self.recordings += 1;
        self.references += references;
        self.kept += replayed.items;
        self.shorter += u64::from(replayed.items < references);
        self.fetches += replayed.fetches;
        self.evictions += replayed.evictions;
        self.joins += one.joins() + two.joins();
        self.deeper_than_2 += u64::from(one.depth().max(two.depth()) > 2);
        self.bracketed_in_two_ways += u64::from(one != two);
        self.both_modes += u64::from(recording.has_both_modes());
        self.with_an_empty_file += u64::from(recording.has_an_empty_file());
        self.from_pages += u64::from(!start.frames.is_empty());
        let is_written = |frame: &Frame| frame.written;
        self.from_written_pages += u64::from(start.frames.iter().any(is_written));
        let writes = recording.items.iter().filter(|item| item.written).count() as u64;
        self.with_reads_and_writes += u64::from(0 < writes && writes < references);
        self.count_ends(recording, start);
    }

    /// The first page that 64 bits can name and the last.
    fn count_ends(&mut self, recording: &Recording, start: &Start) {
        let names = |page: u64| recording.items.iter().any(|item| item.page == page);
        self.with_page_0 += u64::from(names(0));
        self.with_the_last_page += u64::from(names(u64::MAX));
        let starts = |page: u64| start.frames.iter().any(|frame| frame.page == page);
        self.from_page_0 += u64::from(starts(0));
        self.from_the_last_page += u64::from(starts(u64::MAX));
    }

    fn insist_on_enough(&self) {
        assert_eq!(self.recordings, RECORDINGS);
        assert!(self.kept < self.references);
        assert!(self.fetches > 10 * RECORDINGS && self.evictions > 10 * RECORDINGS);
        assert!(self.joins > 5 * RECORDINGS);
        let often = [
            self.shorter,
            self.deeper_than_2,
            self.bracketed_in_two_ways,
            self.both_modes,
            self.with_an_empty_file,
            self.from_pages,
            self.from_written_pages,
            self.with_reads_and_writes,
            self.with_page_0,
            self.with_the_last_page,
            self.from_page_0,
            self.from_the_last_page,
        ];
        assert!(often.iter().all(|count| *count > RECORDINGS / 5));
    }
}

fn replay_as_recorded(name: &str, library: &dyn Library) {
    let seed = Random::seed();
    let mut random = Random::new(seed ^ 9);
    let mut met = Met::default();
    for number in 0..RECORDINGS {
        let (recording, start) = any(&mut random);
        match check(library, &recording, &start) {
            Ok(replayed) => met.count(&recording, &start, &replayed),
            Err(difference) => panic!(
                "seed {seed} recording {number}: {difference:?}: portions {:?} trees {:?} {start:?}",
                recording.portions, recording.trees
            ),
        }
    }
    say(&format!("recordings, {name}: seed {seed}, {met:?}"));
    met.insist_on_enough();
}

#[test]
fn of_the_proved_library() {
    replay_as_recorded("proved", &Proved);
}

#[test]
fn of_the_reference() {
    replay_as_recorded("reference", &Reference);
}

/// What the check answers of each recording for a library with a fault.
fn differences(fault: Fault) -> Vec<Difference> {
    let mut random = Random::new(Random::seed() ^ 9);
    (0..RECORDINGS_FOR_FAULTS)
        .filter_map(|_| {
            let (recording, start) = any(&mut random);
            check(&Faulty(fault), &recording, &start).err()
        })
        .collect()
}

/// Faults after which every file is still a good one, or can be: what a
/// replay does has to show them, not only a refusal.
#[test]
fn wrong_joins_and_reductions_are_found_in_the_replay() {
    for fault in [
        Fault::JoinPutsTheSecondFirst,
        Fault::JoinDropsTheSecondsFirst,
        Fault::JoinDropsTheFirstsLast,
        Fault::DropsLastsOfUnfinishedEpoch,
        Fault::KeepsOnlyMisses,
        Fault::TreatsTheFilterAsACache,
    ] {
        let found = differences(fault);
        let of_replay = |d: &&Difference| matches!(d, Difference::Fetch { .. } | Difference::Pages);
        let shown = found.iter().filter(of_replay).count();
        say(&format!(
            "recordings, {fault:?}: seed {}, found in {} of {RECORDINGS_FOR_FAULTS}, \
             {shown} of them by fetches or pages",
            Random::seed(),
            found.len()
        ));
        assert!(shown > 0, "{fault:?} not found: {found:?}");
    }
}

/// The other faults that break the promise.
#[test]
fn other_faults_are_found() {
    for fault in [
        Fault::RefusesEveryReduction,
        Fault::WritesAnEmptyTrace,
        Fault::WritesLastsAtTheEnd,
        Fault::ForgetsTheMode,
        Fault::RefusesEqualTimes,
        Fault::JoinTakesTheSmallerFilter,
        Fault::ReplayTouchesNothing,
        Fault::ReplayInventsAfterTheFirst,
        Fault::CountsOneFetchTooMany,
        Fault::ClearsUnusedEvents,
        Fault::ReadsBeyondTheResident,
        Fault::LeavesTheCacheInAnotherOrder,
    ] {
        assert!(!differences(fault).is_empty(), "{fault:?} not found");
    }
}

/// A reduction that leaves nothing out replays as recorded: the promise alone
/// does not rule it out, the comparison call by call does.
#[test]
fn a_copy_keeps_the_promise() {
    assert_eq!(differences(Fault::CopiesItsInput), []);
}
