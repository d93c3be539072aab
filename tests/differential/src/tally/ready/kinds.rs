//! What is counted of F, by kinds.

use std::collections::BTreeMap;

#[derive(Clone, Copy, PartialEq, Eq, PartialOrd, Ord, Debug)]
pub enum Kind {
    /// Accepted jobs with F; those with T, with A before an F, with W, and with B, too.
    Accepted,
    WithTerms,
    BehindA,
    WithPrices,
    WithRows,
    /// Those in which a D takes out a block, and in which one stands above what goes.
    Gone,
    Moved,
    /// Answered queries over an empty block, and over equal ones.
    Empty,
    Equal,
    /// Answered L or V, C and N with a block in a set.
    Pages,
    Cheapest,
    Products,
    /// Answered C: with a term beside it, with a block that is no cube, with one for nothing, with one
    /// of 850, and with one whose weight needs its second byte.
    BesideTerm,
    NoCube,
    ForNothing,
    Heaviest,
    TwoBytes,
    /// Queries refused with 12, and N with 17, over blocks.
    Unheld,
    TooMany,
    /// F refused with 4, 5, 10 and 11.
    Misplaced,
    Cut,
    Off,
    Full,
    /// F refused with 18 for one reason alone, and where 10 or 11 applies, too.
    NoOutput,
    HighOutput,
    HighVertex,
    Heavy,
    BeforeOff,
    BeforeFull,
    /// Jobs held to blocks for terms, accepted and refused, and what is in them.
    ForTerms,
    ForTermsRefused,
    ForTermsOff,
    ForTermsFull,
    ForSomeTerms,
    ForTermsPages,
    ForTermsCheapest,
    ForTermsProducts,
    /// C over blocks alone that stay at other prices.
    Untouched,
    /// Queries over blocks held to a fresh job.
    Fresh,
    /// Records with blocks, at other prices, behind a D that moves one, and refused with 18.
    Records,
    RecordsAtPrices,
    RecordsMoved,
    RecordsRefused,
}

/// What a kind is called, and how often it must come in a run: in the jobs made on purpose, and in
/// the drawn ones.
pub struct Named {
    pub kind: Kind,
    pub name: &'static str,
    pub least: [usize; 2],
}

const fn named(kind: Kind, name: &'static str, least: [usize; 2]) -> Named {
    Named { kind, name, least }
}

pub const KINDS: [Named; 43] = [
    named(Kind::Accepted, "accepted jobs", [500, 500]),
    named(Kind::WithTerms, "with T", [200, 200]),
    named(Kind::BehindA, "with an A before an F", [20, 20]),
    named(Kind::WithPrices, "with W", [100, 100]),
    named(Kind::WithRows, "with B", [20, 20]),
    named(Kind::Gone, "with a D of a block", [50, 50]),
    named(Kind::Moved, "with a D below a block", [50, 50]),
    named(Kind::Empty, "queries over an empty block", [10, 10]),
    named(Kind::Equal, "queries over equal blocks", [50, 50]),
    named(Kind::Pages, "L or V with a block in a set", [200, 200]),
    named(Kind::Cheapest, "C with a block", [200, 200]),
    named(Kind::Products, "N with a block in a set", [100, 100]),
    named(Kind::BesideTerm, "C with a block and a term", [50, 50]),
    named(Kind::NoCube, "C with a block that is no cube", [50, 50]),
    named(Kind::ForNothing, "C with a block of 0", [20, 20]),
    named(Kind::Heaviest, "C with a block of 850", [10, 10]),
    named(Kind::TwoBytes, "C with a block above 255", [20, 20]),
    named(Kind::Unheld, "queries refused with 12", [20, 10]),
    named(Kind::TooMany, "N refused with 17", [5, 1]),
    named(Kind::Misplaced, "F refused with 4", [100, 20]),
    named(Kind::Cut, "F refused with 5", [100, 20]),
    named(Kind::Off, "F refused with 10", [100, 20]),
    named(Kind::Full, "F refused with 11", [10, 0]),
    named(Kind::NoOutput, "18 for no output", [20, 5]),
    named(Kind::HighOutput, "18 for an output", [100, 5]),
    named(Kind::HighVertex, "18 for a vertex", [100, 10]),
    named(Kind::Heavy, "18 for a weight", [50, 5]),
    named(Kind::BeforeOff, "18 before 10", [20, 5]),
    named(Kind::BeforeFull, "18 before 11", [10, 0]),
    named(Kind::ForTerms, "accepted jobs with F for T", [500, 500]),
    named(Kind::ForTermsRefused, "refused ones", [500, 500]),
    named(Kind::ForTermsOff, "refused with 10", [20, 10]),
    named(Kind::ForTermsFull, "refused with 11", [5, 0]),
    named(Kind::ForSomeTerms, "with F for some T", [200, 200]),
    named(Kind::ForTermsPages, "their pages", [500, 500]),
    named(Kind::ForTermsCheapest, "their C", [500, 500]),
    named(Kind::ForTermsProducts, "their N", [200, 200]),
    named(Kind::Untouched, "C over blocks at other prices", [50, 5]),
    named(Kind::Fresh, "queries held to a fresh job", [100, 100]),
    named(Kind::Records, "records", [50, 50]),
    named(Kind::RecordsAtPrices, "records at prices", [10, 10]),
    named(Kind::RecordsMoved, "records behind D", [10, 10]),
    named(Kind::RecordsRefused, "records refused with 18", [10, 5]),
];

#[derive(Default)]
pub struct Counts {
    times: BTreeMap<Kind, usize>,
}

impl Counts {
    pub fn count(&mut self, kind: Kind, times: usize) {
        *self.times.entry(kind).or_insert(0) += times;
    }

    pub fn count_if(&mut self, kind: Kind, met: bool) {
        self.count(kind, usize::from(met));
    }

    pub fn times(&self, kind: Kind) -> usize {
        self.times.get(&kind).copied().unwrap_or(0)
    }
}
