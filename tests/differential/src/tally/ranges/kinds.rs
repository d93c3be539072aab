//! What is counted of G and V, by kinds.

use std::collections::BTreeMap;

#[derive(Clone, Copy, PartialEq, Eq, PartialOrd, Ord, Debug)]
pub enum Kind {
    /// Accepted jobs with G, and with V; with V and no G before it; with a G for a number twice, and
    /// for a block.
    Ranged,
    Asked,
    NoRange,
    Replaced,
    OfBlock,
    /// Accepted jobs with a V behind a D below a candidate that has a range, behind a D of one, and
    /// behind an A that follows a G.
    Moved,
    Gone,
    ComeBehind,
    /// Answered V: without sets, with fewer than asked for, full with no more, and full with more;
    /// count 0 with more and without; from a start above 0.
    Empty,
    Partial,
    Full,
    More,
    NothingAsked,
    NothingLeft,
    FromAbove,
    /// V over candidates of which two are equal with other ranges; over P's primes or others with W.
    Equal,
    AtPrices,
    /// V refused with 12 and 14.
    Unheld,
    NoRoom,
    /// G refused with 5, with 15, with 15 where 19 applies, too, and with 19 by each reason alone.
    Cut,
    NotStanding,
    BothRefusals,
    LowAboveHigh,
    HighAbove,
    /// V held to every cover, and to every choice of weights; over equal ends, and with several covers
    /// of least cost there.
    Held,
    ByChoices,
    EqualEnds,
    SeveralLeast,
    /// C whose set must be in V's list, and C whose set is not there.
    Cheapest,
    Outside,
    /// Lists joined from the pages of a job, and those of several pages.
    Joined,
    SeveralPages,
    /// V held to a fresh job, and lists joined over further jobs.
    Fresh,
    FreshLists,
    /// Jobs held to the ones without G and V, accepted and refused, and what is in them behind a G.
    Without,
    WithoutRefused,
    WithoutPages,
    WithoutCheapest,
    WithoutProducts,
    /// Records with a range of several weights, with one that the weight is not in, and refused with
    /// 19.
    Records,
    RecordsOutside,
    RecordsRefused,
}

/// What a kind is called, and how often it must come in a run: in the jobs made on purpose, and in
/// the drawn ones.
pub struct Named {
    pub kind: Kind,
    pub name: &'static str,
    pub least: [usize; 2],
}

const fn named(kind: Kind, name: &'static str, least: [usize; 2]) -> Named {
    Named { kind, name, least }
}

pub const KINDS: [Named; 42] = [
    named(Kind::Ranged, "accepted jobs with G", [500, 200]),
    named(Kind::Asked, "with V", [500, 200]),
    named(Kind::NoRange, "with V and no G before", [50, 20]),
    named(Kind::Replaced, "with G twice for a number", [50, 20]),
    named(Kind::OfBlock, "with G for a block", [50, 20]),
    named(Kind::Moved, "with V behind a D below a range", [50, 20]),
    named(Kind::Gone, "with V behind a D of a range", [50, 20]),
    named(Kind::ComeBehind, "with V behind an A after G", [50, 20]),
    named(Kind::Empty, "V without sets", [50, 20]),
    named(Kind::Partial, "V with fewer sets than asked", [200, 50]),
    named(Kind::Full, "full V without more", [50, 50]),
    named(Kind::More, "full V with more", [100, 50]),
    named(Kind::NothingAsked, "V of count 0 with more", [20, 10]),
    named(Kind::NothingLeft, "V of count 0 without more", [10, 10]),
    named(Kind::FromAbove, "V from a start above 0", [100, 50]),
    named(Kind::Equal, "V over equal candidates", [100, 20]),
    named(Kind::AtPrices, "V with W", [50, 50]),
    named(Kind::Unheld, "V refused with 12", [10, 5]),
    named(Kind::NoRoom, "V refused with 14", [50, 20]),
    named(Kind::Cut, "G refused with 5", [20, 5]),
    named(Kind::NotStanding, "G refused with 15", [50, 10]),
    named(Kind::BothRefusals, "15 before 19", [20, 1]),
    named(Kind::LowAboveHigh, "19 for low above high", [50, 10]),
    named(Kind::HighAbove, "19 for high above 850", [50, 10]),
    named(Kind::Held, "V held to every cover", [500, 200]),
    named(Kind::ByChoices, "to every choice", [200, 100]),
    named(Kind::EqualEnds, "over equal ends", [100, 50]),
    named(Kind::SeveralLeast, "with several of least cost", [50, 20]),
    named(Kind::Cheapest, "C in V's list", [200, 100]),
    named(Kind::Outside, "C not in V's list", [50, 20]),
    named(Kind::Joined, "lists joined in a job", [500, 100]),
    named(Kind::SeveralPages, "of several pages", [5, 20]),
    named(Kind::Fresh, "V held to a fresh job", [500, 200]),
    named(Kind::FreshLists, "lists over further jobs", [200, 50]),
    named(Kind::Without, "accepted jobs without G and V", [500, 200]),
    named(Kind::WithoutRefused, "refused ones", [200, 100]),
    named(Kind::WithoutPages, "their L behind G", [500, 100]),
    named(Kind::WithoutCheapest, "their C", [500, 100]),
    named(Kind::WithoutProducts, "their N", [200, 50]),
    named(Kind::Records, "records", [50, 50]),
    named(
        Kind::RecordsOutside,
        "records with another weight",
        [20, 20],
    ),
    named(Kind::RecordsRefused, "records refused with 19", [5, 5]),
];

#[derive(Default)]
pub struct Counts {
    times: BTreeMap<Kind, usize>,
}

impl Counts {
    pub fn count(&mut self, kind: Kind, times: usize) {
        *self.times.entry(kind).or_insert(0) += times;
    }

    pub fn count_if(&mut self, kind: Kind, met: bool) {
        self.count(kind, usize::from(met));
    }

    pub fn times(&self, kind: Kind) -> usize {
        self.times.get(&kind).copied().unwrap_or(0)
    }
}
