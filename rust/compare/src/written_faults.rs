//! What can be wrong with writes: in the checker, in a reduction, in a replay.

#[derive(Clone, Copy, Debug, PartialEq, Eq)]
pub enum WriteFault {
    /// Tag 7 is a write as well.
    TakesTagSeven,
    /// A reduction marks nothing.
    ForgetsDroppedWrites,
    /// What is kept is never a write, unless it is marked.
    ForgetsKeptWrites,
    /// The first item that is kept is marked, not the last.
    MarksTheFirstKept,
    /// The last item of the phase is marked, not that of the epoch.
    MarksTheLastOfItsPhase,
    /// The last item of the epoch is marked, whatever its page.
    MarksTheLastOfTheEpoch,
    /// A write that is dropped in an earlier phase is forgotten.
    LosesTheMarkOverAPhase,
    /// A write that is kept marks the last item too.
    MarksForKeptWrites,
    /// A page that comes again in the next epoch is marked there too.
    CarriesTheMarkOverAnEpoch,
    /// Room of three numbers for each item is taken.
    TakesRoomOfThree,
    /// A page comes twice in a start, once clean and once written.
    TakesAPageTwice,
    /// The marks of a start are not looked at.
    StartsClean,
    /// A hit by a read makes the page clean.
    HitClearsTheMark,
    /// A hit by a write does not mark the page.
    HitByAWriteIsForgotten,
    /// A write that is itself the fetch leaves the page clean.
    FetchByAWriteIsClean,
    /// The page that comes in has the mark of the one that goes.
    FetchTakesOverTheMark,
    /// The fourth number is 1 for each page that goes.
    TellsEveryPageClean,
    /// The fourth number is that of the page that comes in.
    TellsOfThePageFetched,
    /// The fourth number says clean or written where nothing goes.
    TellsOfNothing,
    /// At the end the marks of the first two frames are exchanged.
    ExchangesTwoMarks,
    /// At the end each place has the mark that it had at the start.
    LeavesTheMarksInTheirPlaces,
    /// Beyond the resident frames all marks are cleared.
    ClearsMarksBeyond,
}

use WriteFault::*;

pub const ALL: [WriteFault; 22] = [
    TakesTagSeven,
    ForgetsDroppedWrites,
    ForgetsKeptWrites,
    MarksTheFirstKept,
    MarksTheLastOfItsPhase,
    MarksTheLastOfTheEpoch,
    LosesTheMarkOverAPhase,
    MarksForKeptWrites,
    CarriesTheMarkOverAnEpoch,
    TakesRoomOfThree,
    TakesAPageTwice,
    StartsClean,
    HitClearsTheMark,
    HitByAWriteIsForgotten,
    FetchByAWriteIsClean,
    FetchTakesOverTheMark,
    TellsEveryPageClean,
    TellsOfThePageFetched,
    TellsOfNothing,
    ExchangesTwoMarks,
    LeavesTheMarksInTheirPlaces,
    ClearsMarksBeyond,
];
