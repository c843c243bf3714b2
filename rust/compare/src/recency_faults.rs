//! What can be wrong with a log of pages: slips that are easily made, and two
//! changes that do no harm.

#[derive(Clone, Copy, Debug, PartialEq, Eq)]
pub enum RecencyFault {
    /// The first dead place of the window is kept too.
    PackingKeepsADeadPlace,
    /// The page that was used longest ago is lost.
    PackingDropsTheFirst,
    /// The page used last is lost.
    PackingDropsTheLast,
    /// The window starts where it started before.
    PackingLeavesLow,
    /// A place is dead if what stood there before was.
    PackingLeavesDeadBytes,
    /// Chains are made anew in front of the ones before.
    PackingLeavesHeads,
    /// Heads are made anew, links are not.
    PackingLeavesLinks,
    /// Neither heads nor links are made anew.
    PackingLeavesChains,
    /// Pages that were written are clean from then on.
    PackingClearsMarks,
    /// Each page has the mark of the one used before it.
    PackingShiftsMarks,
    /// The page that comes again counts twice.
    HitLeavesTheOldPlace,
    HitMarksThePlaceBefore,
    /// A page is dead if what stood in its place before the log was packed was.
    AppendLeavesTheDeadByte,
    /// Only the last page of a bucket is found.
    AppendForgetsTheChain,
    EvictsTheNewest,
    /// Evicts the first place of the window, dead or not.
    EvictsTheFirstPlace,
    /// Goes over one dead place, but not over two.
    EvictsAfterOneDead,
    EvictionLeavesLow,
    /// Any page that was ever there is a hit.
    SearchIgnoresLow,
    /// The page evicted last is a hit.
    SearchGoesOneTooFar,
    /// The first place of the window is not looked at.
    SearchStopsOneTooEarly,
    /// A page is not found where 64 places of its bucket, or more, came after
    /// its last.
    SearchCutsTheChain,
    /// Takes the last page of a bucket for the one that is looked for.
    SearchTrustsTheBucket,
    /// Takes pages for the same that differ in their upper halves only.
    SearchComparesLowerHalves,
    /// The page used last counts as the one used longest ago.
    StartGoesInForwards,
    /// Finds a page twice only if no other of its bucket stands between.
    StartLooksAtHeadsAlone,
    /// Refuses two pages of one bucket.
    StartTakesABucketForAPage,
    /// The first page of a start may come again in it.
    StartLeavesOutTheFirstPage,
    /// No fault: the log is packed when one place is left.
    PacksOnePlaceEarly,
    /// No fault: pages that differ in their upper halves share a bucket.
    BucketsByLowerHalves,
}

use RecencyFault::*;

pub const ALL: [RecencyFault; 28] = [
    PackingKeepsADeadPlace,
    PackingDropsTheFirst,
    PackingDropsTheLast,
    PackingLeavesLow,
    PackingLeavesDeadBytes,
    PackingLeavesHeads,
    PackingLeavesLinks,
    PackingLeavesChains,
    PackingClearsMarks,
    PackingShiftsMarks,
    HitLeavesTheOldPlace,
    HitMarksThePlaceBefore,
    AppendLeavesTheDeadByte,
    AppendForgetsTheChain,
    EvictsTheNewest,
    EvictsTheFirstPlace,
    EvictsAfterOneDead,
    EvictionLeavesLow,
    SearchIgnoresLow,
    SearchGoesOneTooFar,
    SearchStopsOneTooEarly,
    SearchCutsTheChain,
    SearchTrustsTheBucket,
    SearchComparesLowerHalves,
    StartGoesInForwards,
    StartLooksAtHeadsAlone,
    StartTakesABucketForAPage,
    StartLeavesOutTheFirstPage,
];

/// What changes no answer, and is to be found by nothing.
pub const HARMLESS: [RecencyFault; 2] = [PacksOnePlaceEarly, BucketsByLowerHalves];
