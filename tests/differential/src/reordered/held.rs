//! What pairs of jobs were held to, by kinds.

use super::{places, Pair, COME};
use crate::format::{cut, QUERIES};
use std::collections::BTreeMap;

#[derive(Clone, Copy, PartialEq, Eq, PartialOrd, Ord, Debug)]
pub enum Kind {
    /// Both jobs are accepted.
    Pairs,
    /// The other job is refused with 14.
    NoRoom,
    /// A T that has an equal T has another number, in jobs with other bytes and with the same.
    EqualsMoved,
    EqualsAlone,
    /// A T comes to the other side of an A, and of an F.
    Across,
    AcrossBlock,
    /// A job has a query, an A behind it, and a query behind that.
    Between,
    /// Lists of the reference, and places where it has none.
    Listed,
    Beyond,
    /// Lists of the engine's pages; those of several pages in both jobs; those too long to compare.
    Paged,
    SeveralPages,
    TooLong,
    /// Pages from 0 on.
    FromZero,
    /// C commands; those with cost above 0, with cost 0 and members, and with another set.
    Cheapest,
    Dear,
    ForNothing,
    OtherSet,
    /// N commands, and those with several sets.
    Products,
    SeveralSets,
}

/// What a kind is called, and how often it must come in a run: in the jobs made on purpose for K9,
/// and in the drawn ones.
pub struct Named {
    pub kind: Kind,
    pub name: &'static str,
    pub least: [usize; 2],
}

const fn named(kind: Kind, name: &'static str, least: [usize; 2]) -> Named {
    Named { kind, name, least }
}

pub const KINDS: [Named; 19] = [
    named(Kind::Pairs, "pairs of accepted jobs", [500, 500]),
    named(Kind::NoRoom, "other jobs refused with 14", [20, 10]),
    named(Kind::EqualsMoved, "pairs with equal T moved", [200, 100]),
    named(
        Kind::EqualsAlone,
        "pairs with equal T alone moved",
        [50, 20],
    ),
    named(Kind::Across, "pairs with a T moved across an A", [200, 50]),
    named(
        Kind::AcrossBlock,
        "pairs with a T moved across an F",
        [200, 50],
    ),
    named(Kind::Between, "pairs with an A between queries", [200, 20]),
    named(Kind::Listed, "lists of the reference", [500, 500]),
    named(Kind::Beyond, "lists that the reference can't have", [10, 0]),
    named(Kind::Paged, "lists by pages", [500, 500]),
    named(Kind::SeveralPages, "lists by several pages", [200, 200]),
    named(Kind::TooLong, "lists too long to compare", [0, 0]),
    named(Kind::FromZero, "pages from 0 on", [200, 200]),
    named(Kind::Cheapest, "C", [500, 500]),
    named(Kind::Dear, "C with a cost above 0", [200, 200]),
    named(Kind::ForNothing, "C with members for nothing", [20, 10]),
    named(Kind::OtherSet, "C with another set among equals", [100, 50]),
    named(Kind::Products, "N", [500, 200]),
    named(Kind::SeveralSets, "N with several sets", [200, 100]),
];

#[derive(Default)]
pub struct Held {
    times: BTreeMap<Kind, usize>,
}

impl Held {
    pub fn count(&mut self, kind: Kind, times: usize) {
        *self.times.entry(kind).or_insert(0) += times;
    }

    pub fn count_if(&mut self, kind: Kind, met: bool) {
        self.count(kind, usize::from(met));
    }

    pub fn times(&self, kind: Kind) -> usize {
        self.times.get(&kind).copied().unwrap_or(0)
    }

    pub fn add(&mut self, other: &Held) {
        for (&kind, &times) in &other.times {
            self.count(kind, times);
        }
    }

    /// A pair of accepted jobs.
    pub fn count_pair(&mut self, pair: &Pair) {
        let commands = cut(&pair.jobs[0]).expect("accepted");
        let all = places(&commands, COME);
        let candidates: Vec<&[u8]> = all.iter().map(|&at| commands[at]).collect();
        let moved = || (0..candidates.len()).filter(|&i| pair.numbers[i] != i);
        let alike = |i: usize| candidates.iter().filter(|c| **c == candidates[i]).count();
        let equals = moved().any(|i| alike(i) > 1);
        let across = |i: usize, byte: u8| {
            let (low, high) = (i.min(pair.numbers[i]), i.max(pair.numbers[i]));
            candidates[low..high].iter().any(|other| other[0] == byte)
        };
        let same_bytes = pair.jobs[0] == pair.jobs[1];
        self.count(Kind::Pairs, 1);
        self.count_if(Kind::EqualsMoved, equals && !same_bytes);
        self.count_if(Kind::EqualsAlone, equals && same_bytes);
        self.count_if(Kind::Across, moved().any(|i| across(i, b'A')));
        self.count_if(Kind::AcrossBlock, moved().any(|i| across(i, b'F')));
        self.count_if(Kind::Between, asks_around_an_a(&commands));
    }
}

/// A query, an A behind it, and a query behind that.
fn asks_around_an_a(commands: &[&[u8]]) -> bool {
    let queries = places(commands, QUERIES);
    let [Some(first), Some(last)] = [queries.first(), queries.last()] else {
        return false;
    };
    let between = |a: &usize| first < a && a < last;
    places(commands, b"A").iter().any(between)
}
