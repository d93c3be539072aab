//! V and C of the engine, right or with one mistake.

use super::Engine;
use crate::format::number;
use crate::ranged::{is_listed, WRONG};
use crate::reference::{self, Covers};
use crate::selftest::ranges::mistakes::Mistake::*;

impl Engine {
    /// The irredundant covers, or 12.
    fn covers(&mut self) -> Result<Vec<u64>, u64> {
        let table = self.problem.table.as_ref().expect("I came first");
        match reference::irredundant_covers(table, &self.problem.candidates) {
            Covers::None => Err(12),
            Covers::All(covers) => Ok(covers),
            Covers::TooMany => unreachable!("the reference had it"),
        }
    }

    fn list(&self, covers: &[u64]) -> Vec<u64> {
        let compared = match self.mistake {
            EveryCover if self.ranges.len() <= 6 => self.every_cover(),
            _ => covers.to_vec(),
        };
        let listed = |&set: &u64| match self.mistake {
            Way(i) => WRONG[i].1(&self.ranges, &self.weights, covers, set),
            _ => is_listed(&self.ranges, &compared, set),
        };
        covers.iter().copied().filter(listed).collect()
    }

    fn every_cover(&self) -> Vec<u64> {
        let table = self.problem.table.as_ref().expect("I came first");
        let sums = reference::sums(table, &self.problem.candidates);
        let sets = 0..1u64 << self.ranges.len();
        sets.filter(|&set| reference::is_cover(&sums, set))
            .collect()
    }

    pub(super) fn page(&mut self, ops: &[u8], free: usize) -> Result<Vec<u8>, u64> {
        match self.mistake {
            PageLeavesPlace => {}
            PageAsTerm => self.problem.terms_came = true,
            _ => self.problem.queries_came = true,
        }
        let covers = match self.covers() {
            Err(12) if self.mistake == UnheldTaken => Vec::new(),
            Err(12) if self.mistake == NoRoomFirst && free < 3 => return Err(14),
            covers => covers?,
        };
        let mut list = self.list(&covers);
        if self.mistake == ListKept {
            list = self.first_list.get_or_insert(list).clone();
        }
        if self.mistake == UsedOnce {
            self.lose(0);
        }
        Ok(self.written(&covers, &list, ops, free))
    }

    /// Start, count, sets and more.
    fn written(&self, covers: &[u64], list: &[u64], ops: &[u8], free: usize) -> Vec<u8> {
        let (start, count) = (number(&ops[..8]), usize::from(ops[8]));
        let above = |list: &[u64]| -> Vec<u64> {
            let from = |set: &u64| match self.mistake {
                StartIgnored => true,
                StartPassed => *set > start || start == 0,
                _ => *set >= start,
            };
            list.iter().copied().filter(from).collect()
        };
        let (all, own) = (above(covers), above(list));
        let mut sets = own[..own.len().min(count)].to_vec();
        let mut more = own.len() > sets.len();
        match self.mistake {
            MoreOfAll => {
                more = all
                    .iter()
                    .any(|set| sets.last().is_none_or(|last| set > last))
            }
            NeverMore => more = false,
            MoreWhereFull => more = sets.len() == count,
            NoneAtCountZero if count == 0 => more = false,
            FilteredPage => {
                let page = &all[..all.len().min(count)];
                sets = page
                    .iter()
                    .copied()
                    .filter(|set| own.contains(set))
                    .collect();
                more = all.len() > page.len();
            }
            Falling => sets.reverse(),
            CutToRoom if 3 + 8 * sets.len() > free && free >= 3 => {
                sets.truncate((free - 3) / 8);
                more = true;
            }
            _ => {}
        }
        let first = if self.mistake == PageHead { 0x6c } else { 0x76 };
        let mut answer = vec![first, sets.len() as u8, more.into()];
        sets.iter().for_each(|set| answer.extend(set.to_le_bytes()));
        answer
    }

    pub(super) fn cheapest(&mut self) -> Result<Vec<u8>, u64> {
        self.problem.queries_came = true;
        let covers = self.covers()?;
        let weigh = |i: usize| match self.mistake {
            CheapestByLow => self.ranges[i][0],
            CheapestByHigh => self.ranges[i][1],
            _ => self.weights[i],
        };
        let sum = |set: u64, weigh: &dyn Fn(usize) -> u64| -> u64 {
            let members = (0..self.ranges.len()).filter(|i| set >> i & 1 == 1);
            members.map(weigh).sum()
        };
        let by_cost = covers.iter().map(|&set| (sum(set, &weigh), set));
        let (mut cost, mut set) = by_cost.min().expect("a cover");
        match self.mistake {
            CostByLow => cost = sum(set, &|i| self.ranges[i][0]),
            CheapestOfList => {
                set = self.list(&covers)[0];
                cost = sum(set, &weigh);
            }
            _ => {}
        }
        let mut answer = vec![0x63];
        answer.extend((cost as u16).to_le_bytes());
        answer.extend(set.to_le_bytes());
        Ok(answer)
    }
}
