//! What a job at the part was held to, by kinds.

use super::{fitting_by, left, WRONG};
use crate::format::{number, sets};
use crate::reference::Candidate;
use crate::walk::{Query, Standing};
use std::collections::BTreeMap;

#[derive(Clone, Copy, PartialEq, Eq, PartialOrd, Ord, Debug)]
pub enum Kind {
    /// Answered L: over a list that is the engine's, and over a narrower one.
    Wide,
    Narrow,
    /// Of the narrower ones, those at or above whose start a cover is dropped by 32 alone, by 7 alone and
    /// by both; those with one dropped before the first set, between two and where no more is told.
    ByMembers,
    ByOutput,
    ByBoth,
    Before,
    Between,
    Behind,
    /// Those with more, without sets, of count 0 with more and without, from a start above 0, and those
    /// with a set one above a dropped one.
    More,
    Empty,
    NothingAsked,
    NothingLeft,
    FromAbove,
    RightAbove,
    /// Sets with 32 members and with 7 for an output; with a block that is one of the 7. Dropped ones with
    /// 33 and with 8 for an output; with a block that is one of the 8.
    Full,
    FullOutput,
    FullWithBlock,
    OneMore,
    OneMoreForOutput,
    OneMoreWithBlock,
    /// 20: where each cover has too many members alone, where each has too many for an output alone;
    /// from a start of 0, within the list and above it; with count 0, 1 and 255; without room for a page;
    /// behind another answer of the job.
    NoneByMembers,
    NoneByOutput,
    NoneFromZero,
    NoneWithin,
    NoneAbove,
    NoneOfZero,
    NoneOfOne,
    NoneOfMost,
    NoneWithoutRoom,
    NoneBehind,
    /// Where sets are dropped: C, V and N that have one which does not fit.
    Cheapest,
    Possible,
    Products,
    /// Lists joined over further jobs, and those of several pages.
    Joined,
    SeveralPages,
    /// Jobs whose other commands were held to the engine, accepted and refused at one of these.
    Others,
    OthersRefused,
}

#[derive(Default)]
pub struct Held {
    times: BTreeMap<Kind, usize>,
    /// For each wrong way to read the limits, whether it has other sets at some L of the job.
    pub wrong: [bool; WRONG.len()],
}

/// The list at an L: every cover, and those that fit.
struct Lists<'a> {
    candidates: &'a [Candidate],
    covers: &'a [u64],
    fitting: &'a [u64],
}

impl Held {
    pub fn count(&mut self, kind: Kind, times: usize) {
        *self.times.entry(kind).or_insert(0) += times;
    }

    pub fn count_if(&mut self, kind: Kind, met: bool) {
        self.count(kind, usize::from(met));
    }

    pub fn times(&self, kind: Kind) -> usize {
        self.times.get(&kind).copied().unwrap_or(0)
    }

    pub fn join(&mut self, other: &Held) {
        for (&kind, &times) in &other.times {
            self.count(kind, times);
        }
    }

    /// The queries over these candidates, whose lists are known; the buffer has so many bytes.
    pub(super) fn add(
        &mut self,
        standing: &Standing,
        covers: &[u64],
        fitting: &[u64],
        room: usize,
    ) {
        let lists = Lists {
            candidates: &standing.candidates,
            covers,
            fitting,
        };
        for query in &standing.queries {
            match (query.command[0], query.answer) {
                (b'L', Ok(answer)) => self.add_page(&lists, query, answer),
                (b'L', Err(20)) => self.add_none(&lists, query, room - query.answered),
                (byte, Ok(answer)) => self.add_other(&lists, byte, answer),
                _ => {}
            }
        }
        for (seen, (_, way)) in self.wrong.iter_mut().zip(WRONG) {
            let other = fitting_by(way, &standing.table, lists.candidates, covers);
            *seen |= other != fitting;
        }
    }

    fn add_page(&mut self, lists: &Lists, query: &Query, answer: &[u8]) {
        if lists.covers == lists.fitting {
            self.count(Kind::Wide, 1);
            return;
        }
        let (start, count) = (number(&query.command[1..9]), query.command[9]);
        self.count(Kind::Narrow, 1);
        self.count_if(Kind::FromAbove, start > 0);
        match (count, answer[1], answer[2]) {
            (0, _, 0) => self.count(Kind::NothingLeft, 1),
            (0, ..) => self.count(Kind::NothingAsked, 1),
            (_, 0, _) => self.count(Kind::Empty, 1),
            (.., 1) => self.count(Kind::More, 1),
            _ => {}
        }
        self.add_dropped(lists, start, &sets(answer), answer[2] == 0);
    }

    /// What is dropped at or above the start, and where.
    fn add_dropped(&mut self, lists: &Lists, start: u64, page: &[u64], ends: bool) {
        let mut dropped = lists.covers.to_vec();
        dropped.retain(|set| *set >= start && !lists.fitting.contains(set));
        let over: Vec<[bool; 2]> = dropped.iter().map(|&set| lists.over(set)).collect();
        self.count_if(Kind::ByMembers, over.contains(&[true, false]));
        self.count_if(Kind::ByOutput, over.contains(&[false, true]));
        self.count_if(Kind::ByBoth, over.contains(&[true, true]));
        let any = |from: u64, to: u64| dropped.iter().any(|&set| from < set && set < to);
        if let (Some(&first), Some(&last)) = (page.first(), page.last()) {
            self.count_if(Kind::Before, dropped.iter().any(|&set| set < first));
            let between = page.windows(2).any(|two| any(two[0], two[1]));
            self.count_if(Kind::Between, between);
            self.count_if(Kind::Behind, ends && any(last, u64::MAX));
            let right_above = |set: &u64| *set > 0 && dropped.contains(&(set - 1));
            self.count_if(Kind::RightAbove, page.iter().any(right_above));
        }
        for &set in page {
            let left = left(lists.candidates, set);
            self.count_if(Kind::Full, left[8] == 0);
            self.count_if(Kind::FullOutput, left[..8].contains(&0));
            self.count_if(Kind::FullWithBlock, lists.block_at(set, 0));
        }
        for &set in &dropped {
            let left = left(lists.candidates, set);
            self.count_if(Kind::OneMore, left[8] == -1);
            self.count_if(Kind::OneMoreForOutput, left[..8].contains(&-1));
            self.count_if(Kind::OneMoreWithBlock, lists.block_at(set, -1));
        }
    }

    fn add_none(&mut self, lists: &Lists, query: &Query, free: usize) {
        let (start, count) = (number(&query.command[1..9]), query.command[9]);
        let each = |over: [bool; 2]| lists.covers.iter().all(|&set| lists.over(set) == over);
        self.count_if(Kind::NoneByMembers, each([true, false]));
        self.count_if(Kind::NoneByOutput, each([false, true]));
        let last = lists.covers.last().copied().unwrap_or(0);
        self.count_if(Kind::NoneFromZero, start == 0);
        self.count_if(Kind::NoneWithin, 0 < start && start <= last);
        self.count_if(Kind::NoneAbove, start > last);
        self.count_if(Kind::NoneOfZero, count == 0);
        self.count_if(Kind::NoneOfOne, count == 1);
        self.count_if(Kind::NoneOfMost, count == 255);
        self.count_if(Kind::NoneWithoutRoom, free < 3);
        self.count_if(Kind::NoneBehind, query.answered > 0);
    }

    /// C, N and V are the engine's: they have sets that do not fit.
    fn add_other(&mut self, lists: &Lists, byte: u8, answer: &[u8]) {
        let (kind, list) = match byte {
            b'C' => (Kind::Cheapest, vec![number(&answer[3..])]),
            b'V' => (Kind::Possible, sets(answer)),
            _ => (Kind::Products, sets(answer)),
        };
        let fits = |set: &u64| lists.fitting.contains(set);
        self.count_if(kind, !list.iter().all(fits));
    }
}

impl Lists<'_> {
    /// Whether a set has too many members, and too many for an output.
    fn over(&self, set: u64) -> [bool; 2] {
        let left = left(self.candidates, set);
        [left[8] < 0, left[..8].iter().any(|&terms| terms < 0)]
    }

    /// Whether a block and a term are members for an output of which so many terms are left.
    fn block_at(&self, set: u64, terms: i32) -> bool {
        let left = left(self.candidates, set);
        let at = |c: &Candidate| (0..8).any(|j| left[j] == terms && c.outputs() >> j & 1 == 1);
        let numbered = self.candidates.iter().enumerate();
        let members = numbered.filter(|(i, _)| set >> i & 1 == 1).map(|(_, c)| c);
        let (blocks, others): (Vec<_>, Vec<_>) = members.partition(|c| c.block().is_some());
        blocks.into_iter().any(at) && others.into_iter().any(at)
    }
}
