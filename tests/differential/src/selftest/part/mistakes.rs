//! Ways to read K12 wrongly, by name.

use crate::part::WRONG;

#[derive(Clone, Copy, PartialEq, Eq, Debug)]
pub enum Mistake {
    Right,
    /// What changes nothing: the engine is asked for pages of one set, and covers are jumped over whose
    /// highest members do not fit.
    ByOne,
    Jumps,

    // What fits.
    /// A wrong way to read the limits.
    Way(usize),
    WideList,
    LeftBehind,
    ComeNotCounted,
    PrimesNotCounted,

    // 20.
    NeverRefused,
    Twelve,
    Fourteen,
    AboveStart,
    NotAtCountZero,
    AfterNoRoom,
    BeforeUnheld,
    UnheldAsNone,
    AtWhatFollows,
    OnlyFirstCover,
    OnlyFirstPage,
    AnyUnfit,

    // Pages.
    MoreOfWide,
    NeverMore,
    MoreWhereFull,
    NoneAtCountZero,
    StartIgnored,
    StartPassed,
    JumpTooFar,
    RunTooFar,
    StopAtUnfit,
    FilteredPage,
    Falling,
    CutToRoom,
    WideRoom,
    ListKept,
    LeavesPlace,

    // The others.
    Cheapest,
    Possible,
    Products,
    CheapestRefused,
    PossibleRefused,
    ProductsRefused,
    PrimesRefused,
}

use Mistake::*;

const NAMED: [(Mistake, &str); 38] = [
    (WideList, "the engine's list"),
    (LeftBehind, "outputs left behind at D"),
    (ComeNotCounted, "outputs of A not counted"),
    (PrimesNotCounted, "outputs of primes not counted"),
    (NeverRefused, "20 left out"),
    (Twelve, "12 for 20"),
    (Fourteen, "14 for 20"),
    (AboveStart, "20 where none fits above the start"),
    (NotAtCountZero, "no 20 at count 0"),
    (AfterNoRoom, "20 after 14"),
    (BeforeUnheld, "20 before 12"),
    (UnheldAsNone, "20 for 12"),
    (AtWhatFollows, "20 at what follows"),
    (OnlyFirstCover, "20 by the first cover alone"),
    (OnlyFirstPage, "20 by the first page of the engine alone"),
    (AnyUnfit, "20 where any cover does not fit"),
    (MoreOfWide, "more of the engine's list"),
    (NeverMore, "never more"),
    (MoreWhereFull, "more of each full page"),
    (NoneAtCountZero, "no more at count 0"),
    (StartIgnored, "starts ignored"),
    (StartPassed, "sets above the start alone"),
    (JumpTooFar, "one too far behind a cover that does not fit"),
    (RunTooFar, "one too far behind a run of them"),
    (StopAtUnfit, "the page ends where a cover does not fit"),
    (FilteredPage, "a page of the engine filtered"),
    (Falling, "sets fall"),
    (CutToRoom, "cut to the buffer"),
    (WideRoom, "room for the engine's page"),
    (ListKept, "the list of the first L"),
    (LeavesPlace, "L leaves the place"),
    (Cheapest, "C by the limits"),
    (Possible, "V by the limits"),
    (Products, "N by the limits"),
    (CheapestRefused, "20 at C"),
    (PossibleRefused, "20 at V"),
    (ProductsRefused, "20 at N"),
    (PrimesRefused, "20 at P"),
];

/// All of them, with their names.
pub fn all() -> Vec<(Mistake, String)> {
    let named = NAMED.iter().map(|(m, name)| (*m, name.to_string()));
    let ways = WRONG.iter().enumerate();
    let ways = ways.map(|(i, (name, _))| (Way(i), format!("limits: {name}")));
    named.chain(ways).collect()
}
