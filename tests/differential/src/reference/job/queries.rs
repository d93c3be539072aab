//! L, C, N and V: what they answer, and 12 and 17.

use super::{Problem, Stop};
use crate::reference::covers::{cheapest, irredundant_covers, Covers};
use crate::reference::products::{products, Products};
use crate::reference::ranges::possibly_cheapest;

/// L's rules for a page of a rising list, by start and count.
fn page_of(first: u8, list: &[u64], ops: &[u8]) -> Vec<u8> {
    let start = u64::from_le_bytes(ops[..8].try_into().expect("eight bytes"));
    let count = usize::from(ops[8]);
    let above: Vec<u64> = list.iter().copied().filter(|&set| set >= start).collect();
    let k = above.len().min(count);
    let mut answer = vec![first, k as u8, u8::from(above.len() > k)];
    for set in &above[..k] {
        answer.extend(set.to_le_bytes());
    }
    answer
}

impl Problem {
    /// The covers are found once, and anew when the candidates have changed since.
    fn covers(&mut self) -> Result<&[u64], Stop> {
        self.queries_came = true;
        let table = self.table.as_ref().expect("I came first");
        let candidates = &self.candidates;
        match self
            .covers
            .get_or_insert_with(|| irredundant_covers(table, candidates))
        {
            Covers::None => Err(Stop::Refused(12)),
            Covers::TooMany => Err(Stop::TooMany),
            Covers::All(covers) => Ok(covers),
        }
    }

    pub(super) fn page(&mut self, ops: &[u8]) -> Result<Vec<u8>, Stop> {
        Ok(page_of(0x6c, self.covers()?, ops))
    }

    /// V: the list is found once, and anew when candidates or ranges have changed since.
    pub(super) fn ranged_page(&mut self, ops: &[u8]) -> Result<Vec<u8>, Stop> {
        self.covers()?;
        let Some(Covers::All(covers)) = &self.covers else {
            unreachable!("they have just been found");
        };
        let ranges = &self.ranges;
        let list = self
            .possibly_cheapest
            .get_or_insert_with(|| possibly_cheapest(covers, ranges));
        Ok(page_of(0x76, list, ops))
    }

    pub(super) fn cheapest(&mut self) -> Result<Vec<u8>, Stop> {
        let covers = self.covers()?.to_vec();
        let (cost, set) = cheapest(self.prices(), &self.candidates, &covers);
        let mut answer = vec![0x63];
        answer.extend((cost as u16).to_le_bytes());
        answer.extend(set.to_le_bytes());
        Ok(answer)
    }

    /// For the place of the other commands an N counts as an L. The products are found once, too.
    pub(super) fn multiplied(&mut self) -> Result<Vec<u8>, Stop> {
        self.queries_came = true;
        let table = self.table.as_ref().expect("I came first");
        let candidates = &self.candidates;
        let found = self
            .products
            .get_or_insert_with(|| products(table, candidates));
        match found {
            Products::None => Err(Stop::Refused(12)),
            Products::TooMany => Err(Stop::Refused(17)),
            Products::All(sets) => {
                let mut answer = vec![0x6e];
                answer.extend((sets.len() as u16).to_le_bytes());
                sets.iter().for_each(|set| answer.extend(set.to_le_bytes()));
                Ok(answer)
            }
        }
    }
}
