//! What is counted of the part, and how often it must come.

use crate::part::Kind;

/// What a kind is called, and how often it must come in a run: in the jobs made on purpose, and in
/// the drawn ones.
pub struct Named {
    pub kind: Kind,
    pub name: &'static str,
    pub least: [usize; 2],
}

const fn named(kind: Kind, name: &'static str, least: [usize; 2]) -> Named {
    Named { kind, name, least }
}

pub const KINDS: [Named; 37] = [
    named(Kind::Wide, "L over the engine's list", [200, 200]),
    named(Kind::Narrow, "L over a narrower one", [500, 200]),
    named(
        Kind::ByMembers,
        "with a cover dropped by 32 alone",
        [50, 20],
    ),
    named(Kind::ByOutput, "by 7 alone", [50, 20]),
    named(Kind::ByBoth, "by both", [20, 5]),
    named(Kind::Before, "dropped before the first set", [50, 20]),
    named(Kind::Between, "between two", [50, 20]),
    named(Kind::Behind, "where no more is told", [50, 20]),
    named(Kind::More, "with more", [50, 20]),
    named(Kind::Empty, "without sets", [50, 20]),
    named(Kind::NothingAsked, "of count 0 with more", [20, 10]),
    named(Kind::NothingLeft, "of count 0 without more", [20, 10]),
    named(Kind::FromAbove, "from a start above 0", [100, 50]),
    named(
        Kind::RightAbove,
        "with a set one above a dropped one",
        [20, 5],
    ),
    named(Kind::Full, "sets of 32 members", [20, 20]),
    named(Kind::FullOutput, "of 7 for an output", [100, 50]),
    named(Kind::FullWithBlock, "a block among the 7", [20, 20]),
    named(Kind::OneMore, "dropped ones of 33 members", [20, 20]),
    named(Kind::OneMoreForOutput, "of 8 for an output", [100, 50]),
    named(Kind::OneMoreWithBlock, "a block among the 8", [20, 20]),
    named(Kind::NoneByMembers, "20 by members alone", [20, 5]),
    named(Kind::NoneByOutput, "by outputs alone", [20, 5]),
    named(Kind::NoneFromZero, "20 from 0", [20, 5]),
    named(Kind::NoneWithin, "from within the list", [20, 5]),
    named(Kind::NoneAbove, "from above it", [20, 5]),
    named(Kind::NoneOfZero, "20 with count 0", [20, 5]),
    named(Kind::NoneOfOne, "with count 1", [20, 5]),
    named(Kind::NoneOfMost, "with count 255", [20, 5]),
    named(Kind::NoneWithoutRoom, "20 without room", [20, 2]),
    named(Kind::NoneBehind, "20 behind an answer", [20, 5]),
    named(Kind::Cheapest, "C that does not fit", [50, 20]),
    named(Kind::Possible, "V that has one", [20, 10]),
    named(Kind::Products, "N that has one", [50, 20]),
    named(Kind::Joined, "lists over further jobs", [100, 50]),
    named(Kind::SeveralPages, "of several pages", [50, 20]),
    named(Kind::Others, "accepted jobs held to the engine", [200, 50]),
    named(Kind::OthersRefused, "refused ones", [50, 5]),
];
