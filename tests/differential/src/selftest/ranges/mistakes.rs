//! Ways to read K11 wrongly, by name.

use crate::ranged::WRONG;

#[derive(Clone, Copy, PartialEq, Eq, Debug)]
pub enum Mistake {
    Right,
    /// What changes nothing: every cover is compared, not the irredundant ones alone.
    EveryCover,

    // How G is read.
    EndsExchanged,
    BytesExchanged,
    LowBytesAlone,
    NumbersFromOne,

    // What G is refused for.
    NotStandingTaken,
    CountTaken,
    HeavyTaken,
    HighNotTried,
    HeaviestRefused,
    EqualRefused,
    LowAboveHighTaken,
    EndsFirst,
    EndsBeforeCut,
    Eighteen,
    OutsideRefused,
    BlockRefused,
    AtWhatFollows,

    // What G leaves.
    FirstKept,
    Widened,
    Narrowed,
    OnlyLast,
    EqualsShare,
    WeightSet,
    WeightClamped,
    LowAlone,
    HighAlone,
    Answered,

    // What comes.
    LostAtCome,
    KeptByNumber,
    NewFree,
    NewWide,
    NewAtUsualPrices,
    NewBlockFree,

    // What goes.
    LostAtGo,
    LeftBehind,
    AboveLost,

    // V.
    PageHead,
    MoreOfAll,
    NeverMore,
    MoreWhereFull,
    NoneAtCountZero,
    StartIgnored,
    StartPassed,
    FilteredPage,
    Falling,
    CutToRoom,
    UsedOnce,
    UnheldTaken,
    NoRoomFirst,
    ListKept,
    /// A wrong way to the list.
    Way(usize),

    // C.
    CheapestByLow,
    CheapestByHigh,
    CostByLow,
    CheapestOfList,

    // Places.
    RangeLeavesPlace,
    PageLeavesPlace,
    PageAsTerm,
    /// The second command is refused with 4 right behind the first.
    Refused(u8, u8),
}

use Mistake::*;

const NAMED: [(Mistake, &str); 56] = [
    (EndsExchanged, "ends exchanged"),
    (BytesExchanged, "high byte first"),
    (LowBytesAlone, "low bytes alone"),
    (NumbersFromOne, "numbers from one"),
    (NotStandingTaken, "15 left out"),
    (CountTaken, "the number above the last taken"),
    (HeavyTaken, "851 taken"),
    (HighNotTried, "high above 850 taken"),
    (HeaviestRefused, "850 refused"),
    (EqualRefused, "equal ends refused"),
    (LowAboveHighTaken, "low above high taken"),
    (EndsFirst, "19 before 15"),
    (EndsBeforeCut, "19 before 5"),
    (Eighteen, "18 for 19"),
    (OutsideRefused, "a range without the weight refused"),
    (BlockRefused, "a range of a block refused"),
    (AtWhatFollows, "19 at what follows"),
    (FirstKept, "an earlier G kept"),
    (Widened, "a later G widens"),
    (Narrowed, "a later G narrows"),
    (OnlyLast, "the last G alone"),
    (EqualsShare, "equal candidates share a range"),
    (WeightSet, "G sets the weight"),
    (WeightClamped, "G moves the weight into the range"),
    (LowAlone, "the low end for both"),
    (HighAlone, "the high end for both"),
    (Answered, "G answers"),
    (LostAtCome, "ranges lost at A"),
    (KeptByNumber, "a new candidate has the range of its number"),
    (NewFree, "a new candidate for nothing"),
    (NewWide, "a new candidate from 0 to 850"),
    (NewAtUsualPrices, "a new candidate at the usual prices"),
    (NewBlockFree, "a block for nothing"),
    (LostAtGo, "ranges lost at D"),
    (LeftBehind, "ranges left behind at D"),
    (AboveLost, "ranges above lost at D"),
    (PageHead, "L's first byte"),
    (MoreOfAll, "more of L's list"),
    (NeverMore, "never more"),
    (MoreWhereFull, "more of each full page"),
    (NoneAtCountZero, "no more at count 0"),
    (StartIgnored, "starts ignored"),
    (StartPassed, "sets above the start alone"),
    (FilteredPage, "a page of L filtered"),
    (Falling, "sets fall"),
    (CutToRoom, "cut to the buffer"),
    (UsedOnce, "ranges used once"),
    (UnheldTaken, "12 left out at V"),
    (NoRoomFirst, "14 before 12 at V"),
    (ListKept, "the list of the first V"),
    (CheapestByLow, "C by the low ends"),
    (CheapestByHigh, "C by the high ends"),
    (CostByLow, "C's cost by the low ends"),
    (CheapestOfList, "C the first of V's list"),
    (RangeLeavesPlace, "G leaves the place"),
    (PageLeavesPlace, "V leaves the place"),
];

/// All of them, with their names.
pub fn all() -> Vec<(Mistake, String)> {
    let mut list: Vec<(Mistake, String)> = Vec::new();
    list.extend(NAMED.iter().map(|(m, name)| (*m, name.to_string())));
    list.push((PageAsTerm, "V counts as a T".into()));
    for (i, (name, _)) in WRONG.iter().enumerate() {
        list.push((Way(i), format!("list: {name}")));
    }
    let name = |a: u8, b: u8| format!("{} refused behind {}", char::from(b), char::from(a));
    for own in *b"GV" {
        for other in *b"IWRBTFADPLCNGV" {
            list.push((Refused(other, own), name(other, own)));
        }
        for other in *b"ADLCNE" {
            list.push((Refused(own, other), name(own, other)));
        }
    }
    list
}

/// Those that the answers to V tell by themselves.
pub fn seen_by_answers() -> Vec<(Mistake, String)> {
    let mut list = all();
    list.retain(|(mistake, _)| {
        let by_list = [
            FirstKept,
            Widened,
            Narrowed,
            OnlyLast,
            EqualsShare,
            LowAlone,
            HighAlone,
            LostAtCome,
            KeptByNumber,
            NewFree,
            NewWide,
            NewAtUsualPrices,
            NewBlockFree,
            LostAtGo,
            LeftBehind,
            AboveLost,
            PageHead,
            MoreOfAll,
            NeverMore,
            MoreWhereFull,
            NoneAtCountZero,
            StartIgnored,
            StartPassed,
            FilteredPage,
            Falling,
            CutToRoom,
            UsedOnce,
            ListKept,
        ];
        by_list.contains(mistake) || matches!(mistake, Way(_))
    });
    list
}

/// Those that change what the other commands answer.
pub const AT_OTHERS: [Mistake; 6] = [
    WeightSet,
    WeightClamped,
    CheapestByLow,
    CheapestByHigh,
    CostByLow,
    CheapestOfList,
];
