//! What can be wrong with page 0 and with the last page that 64 bits can name.
//! Where a page or a number says that there is none, one of the two is lost.

#[derive(Clone, Copy, Debug, PartialEq, Eq)]
pub enum PageFault {
    /// An item of the last page is refused, with the number 5.
    RefusesTheLastPage,
    /// A start that has the last page is refused.
    RefusesTheLastPageInAStart,
    /// Where nothing goes the third number is the last page.
    TellsTheLastPageForNothing,
    /// Where the last page goes the third number is one more, which is 0.
    WrapsTheLastPage,
    /// Where the last page goes an event says that nothing does.
    TellsNothingForTheLastPage,
    /// The same where page 0 goes.
    TellsNothingForPage0,
    /// Where the third number is 0 no eviction is counted.
    CountsPage0ForNothing,
    /// One is counted wherever the third number is not the last page.
    CountsTheLastPageForNothing,
    /// A time may fall at an item of the last page.
    OverlooksAFallAtTheLastPage,
    /// The last page may come twice in a start.
    TakesTheLastPageTwice,
    /// The last page is a new one whenever it comes, in a reduction and in a
    /// replay.
    NeverFindsTheLastPage,
    /// So is page 0.
    NeverFindsPage0,
}

use PageFault::*;

pub const ALL: [PageFault; 12] = [
    RefusesTheLastPage,
    RefusesTheLastPageInAStart,
    TellsTheLastPageForNothing,
    WrapsTheLastPage,
    TellsNothingForTheLastPage,
    TellsNothingForPage0,
    CountsPage0ForNothing,
    CountsTheLastPageForNothing,
    OverlooksAFallAtTheLastPage,
    TakesTheLastPageTwice,
    NeverFindsTheLastPage,
    NeverFindsPage0,
];
