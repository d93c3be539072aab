//! L of the part, right or with one mistake.

use super::Part;
use crate::format::number;
use crate::selftest::part::mistakes::Mistake::*;

impl Part {
    /// 12, then 20.
    fn refused(&mut self, start: u64, count: u8) -> Result<(), u64> {
        let list = match self.wide(0) {
            Err(12) if self.mistake == UnheldAsNone => return Err(20),
            Err(12) if self.mistake == BeforeUnheld && self.all_too_many() => return Err(20),
            list => list?,
        };
        let tried = match self.mistake {
            AboveStart => self.wide(start)?,
            OnlyFirstCover => list[..1].to_vec(),
            OnlyFirstPage => list[..list.len().min(255)].to_vec(),
            _ => list.clone(),
        };
        let none = match self.mistake {
            AnyUnfit => self.fitting(&list) != list,
            _ => self.fitting(&tried).is_empty(),
        };
        match self.mistake {
            _ if !none => Ok(()),
            NeverRefused => Ok(()),
            NotAtCountZero if count == 0 => Ok(()),
            Twelve => Err(12),
            Fourteen => Err(14),
            _ => Err(20),
        }
    }

    /// More candidates than the part has terms for, whatever they hold.
    fn all_too_many(&self) -> bool {
        let all = (0..self.counted.len()).fold(0, |all, i| all | 1 << i);
        !self.fits(all)
    }

    pub(super) fn page(&mut self, ops: &[u8], free: usize) -> Result<Vec<u8>, u64> {
        let (start, count) = (number(&ops[..8]), ops[8]);
        let refused = self.refused(start, count);
        if self.mistake == AfterNoRoom && refused == Err(20) && free < 3 {
            return Err(14);
        }
        refused?;
        let (list, more) = self.listed(start, count)?;
        let wide = self.lister(start, count)?.0.len();
        if self.mistake == WideRoom && 3 + 8 * wide > free {
            return Err(14);
        }
        Ok(self.written(list, more, free))
    }

    /// The sets of a page, and more.
    fn listed(&mut self, start: u64, count: u8) -> Result<(Vec<u64>, bool), u64> {
        let from = match self.mistake {
            StartIgnored => 0,
            StartPassed if start > 0 => start.saturating_add(1),
            _ => start,
        };
        let wide = self.wide(from)?;
        let mut own = match self.mistake {
            Jumps => self.jumping(&wide, |set| self.behind_run(set)),
            RunTooFar => self.jumping(&wide, |set| self.behind_run(set) + 1),
            JumpTooFar => self.jumping(&wide, |set| u128::from(set) + 2),
            _ => self.fitting(&wide),
        };
        if self.mistake == ListKept {
            let whole = self.wide(0)?;
            let whole = self.fitting(&whole);
            own = self.first_list.get_or_insert(whole).clone();
            own.retain(|&set| set >= start);
        }
        let count = usize::from(count);
        let mut list = own[..own.len().min(count)].to_vec();
        let mut more = own.len() > list.len();
        match self.mistake {
            StopAtUnfit => list.truncate(wide.iter().take_while(|&&s| self.fits(s)).count()),
            FilteredPage => {
                let page = &wide[..wide.len().min(count)];
                list = self.fitting(page);
                more = wide.len() > page.len();
            }
            MoreOfWide => {
                let above = |set: &u64| list.last().is_none_or(|last| set > last);
                more = wide.iter().any(above);
            }
            NeverMore => more = false,
            MoreWhereFull => more = list.len() == count,
            NoneAtCountZero if count == 0 => more = false,
            Falling => list.reverse(),
            _ => {}
        }
        Ok((list, more))
    }

    /// Those that fit, where it goes on elsewhere behind a cover that does not.
    fn jumping(&self, wide: &[u64], behind: impl Fn(u64) -> u128) -> Vec<u64> {
        let mut next = 0;
        let mut list = Vec::new();
        for &set in wide {
            if u128::from(set) < next {
                continue;
            }
            if self.fits(set) {
                list.push(set);
            } else {
                next = behind(set);
            }
        }
        list
    }

    /// Where the highest members, which do not fit by themselves, change.
    fn behind_run(&self, set: u64) -> u128 {
        let bad = |bit: &u32| !self.fits(set >> bit << bit);
        let bit = (0..64).rev().find(bad).expect("it does not fit");
        (u128::from(set >> bit) + 1) << bit
    }

    fn written(&self, mut list: Vec<u64>, mut more: bool, free: usize) -> Vec<u8> {
        if self.mistake == CutToRoom && 3 + 8 * list.len() > free && free >= 3 {
            list.truncate((free - 3) / 8);
            more = true;
        }
        let mut answer = vec![0x6c, list.len() as u8, more.into()];
        list.iter().for_each(|set| answer.extend(set.to_le_bytes()));
        answer
    }
}
