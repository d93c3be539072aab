//! N by multiplication, right or with one mistake. The holders of a cell are one set here, and what
//! remains is counted apart from the limit.

use super::mistakes::Mistake::{self, *};
use crate::reference::{Candidate, Cell, Table};

/// More products than these are not gone on with.
const ENOUGH: usize = 4_200;

/// N's answer or the number of its refusal.
pub type Answer = Result<Vec<u8>, u64>;

pub struct Engine {
    mistake: Mistake,
}

impl Engine {
    pub fn with(mistake: Mistake) -> Engine {
        Engine { mistake }
    }

    /// What N gives over so many free bytes; None where a wrong engine is given up.
    pub fn answer(&self, table: &Table, candidates: &[Candidate], free: usize) -> Option<Answer> {
        let cells = self.cells(table, candidates);
        let unheld = cells.contains(&0);
        if unheld && self.mistake != TooManyFirst {
            return Some(Err(12));
        }
        // None where they are too many.
        let found = self.multiply(&cells)?;
        if unheld && found.is_some() {
            return Some(Err(12));
        }
        let answer = found.map(|sets| self.written(table, sets));
        Some(match (self.mistake, answer) {
            // The least answer that is too long for the limit.
            (NoRoomFirst, None) if free < 3 + 8 * 1_025 => Err(14),
            (NoRoomForTooMany, None) => Err(14),
            (_, None) => Err(17),
            (_, Some(answer)) if answer.len() > free => Err(14),
            (_, Some(answer)) => Ok(answer),
        })
    }

    /// How many products remain at each cell, up to the first at which they are too many to go on.
    pub fn counts(&self, table: &Table, candidates: &[Candidate]) -> Vec<usize> {
        let mut products = vec![0];
        let mut counts = Vec::new();
        for cell in self.cells(table, candidates) {
            products = self.keep(self.join(&products, cell));
            counts.push(products.len());
            if products.len() > ENOUGH {
                break;
            }
        }
        counts
    }

    /// The holders of each cell, in the order in which the cells are taken.
    fn cells(&self, table: &Table, candidates: &[Candidate]) -> Vec<u64> {
        let mut places: Vec<(usize, usize)> = table.cells().collect();
        let held = |v, j| candidates.iter().any(|c| c.holds(v, j));
        places.retain(|&(v, j)| match table.cell(v, j) {
            Cell::Wanted => true,
            Cell::Free => self.mistake == FreeToo && held(v, j),
            Cell::Off => false,
        });
        match self.mistake {
            ByOutput => places.sort_by_key(|&(v, j)| (j, v)),
            VerticesFall => places.sort_by_key(|&(v, j)| (usize::MAX - v, j)),
            OutputsFall => places.sort_by_key(|&(v, j)| (v, usize::MAX - j)),
            FirstCellLeftOut if !places.is_empty() => drop(places.remove(0)),
            LastCellLeftOut => drop(places.pop()),
            _ => {}
        }
        let holders = |&(v, j): &(usize, usize)| {
            let holding = (0..candidates.len()).filter(|&i| candidates[i].holds(v, j));
            holding.fold(0, |set, i| set | 1 << i)
        };
        self.taken(places.iter().map(holders).collect(), candidates.len())
    }

    /// The cells that are taken, in their order.
    fn taken(&self, mut cells: Vec<u64>, candidates: usize) -> Vec<u64> {
        let all = cells.clone();
        let within = |a: u64, b: u64| a & !b == 0;
        match self.mistake {
            RepeatsLeftOut => {
                cells.clear();
                for &cell in &all {
                    if !cells.iter().any(|&before| within(before, cell)) {
                        cells.push(cell);
                    }
                }
            }
            Reduced => cells.retain(|&cell| !all.iter().any(|&c| c != cell && within(c, cell))),
            FewestFirst => cells.sort_by_key(|cell| cell.count_ones()),
            NeededFirst => cells.sort_by_key(|cell| cell.count_ones() > 1),
            Delta => cells.retain(|cell| cell.count_ones() as usize != candidates),
            _ => {}
        }
        cells
    }

    /// The last products, or None where they are too many.
    fn multiply(&self, cells: &[u64]) -> Option<Option<Vec<u64>>> {
        let most = match self.mistake {
            LeastTooMany => 1_023,
            MostTaken => 1_025,
            _ => 1_024,
        };
        let mut products = vec![0];
        for (i, &cell) in cells.iter().enumerate() {
            let last = i + 1 == cells.len();
            let joined = self.join(&products, cell);
            let joins = joined.len();
            let alone = unique(joined.clone());
            let sets = alone.len();
            products = match self.mistake {
                KeptAtTheEnd if !last => alone,
                _ => self.keep(joined),
            };
            let counted = match self.mistake {
                CountedBeforeKeeping => sets,
                CountedWithCopies => joins,
                LimitAtTheEnd if !last => 0,
                NoLimit => 0,
                _ => products.len(),
            };
            if counted > most {
                return Some(None);
            }
            if products.len() > ENOUGH {
                return None;
            }
        }
        Some(Some(products))
    }

    /// Every product with every holder, as they come.
    fn join(&self, products: &[u64], cell: u64) -> Vec<u64> {
        let mut list = Vec::new();
        for &p in products {
            let holders = (0..64).filter(|i| cell >> i & 1 == 1).map(|i| 1 << i);
            match self.mistake {
                JoinedOnce | RepeatsLeftOut if p & cell != 0 => list.push(p),
                FirstHolderAlone if p & cell != 0 => list.extend(holders.take(1).map(|h| p | h)),
                _ => list.extend(holders.map(|h: u64| p | h)),
            }
        }
        list
    }

    /// What contains no other, one copy of each.
    fn keep(&self, joined: Vec<u64>) -> Vec<u64> {
        if self.mistake == ContainedKept {
            return unique(joined);
        }
        let mut least = least(&joined);
        least.sort_unstable();
        let mut as_they_came = joined;
        as_they_came.retain(|p| least.binary_search(p).is_ok());
        match self.mistake {
            CopiesKept => as_they_came,
            AsTheyCome => unique(as_they_came),
            _ => least,
        }
    }

    fn written(&self, table: &Table, mut sets: Vec<u64>) -> Vec<u8> {
        match self.mistake {
            AsTheyCome => {}
            Falling => sets.sort_unstable_by_key(|&set| u64::MAX - set),
            _ => sets.sort_unstable(),
        }
        match self.mistake {
            LastSetLeftOut if sets.len() > 1 => drop(sets.pop()),
            NoProduct if table.wanted_cells().is_empty() => sets.clear(),
            _ => {}
        }
        let [low, high, ..] = sets.len().to_le_bytes();
        let mut answer = match self.mistake {
            OneByte => vec![0x6e, low, 0],
            HighByteFirst => vec![0x6e, high, low],
            PageHead => vec![0x6c, low, high],
            _ => vec![0x6e, low, high],
        };
        sets.iter().for_each(|set| answer.extend(set.to_le_bytes()));
        answer
    }
}

/// The sets that contain no other, those with fewest members first. Some more than `ENOUGH` tell
/// that they are too many.
fn least(list: &[u64]) -> Vec<u64> {
    let mut by_size = list.to_vec();
    by_size.sort_unstable_by_key(|p| (p.count_ones(), *p));
    by_size.dedup();
    let mut least: Vec<u64> = Vec::new();
    for p in by_size {
        if least.len() <= ENOUGH && !least.iter().any(|q| q & !p == 0) {
            least.push(p);
        }
    }
    least
}

/// One copy of each, in the order in which they came.
fn unique(list: Vec<u64>) -> Vec<u64> {
    let mut places: Vec<(u64, usize)> = list.into_iter().zip(0..).collect();
    places.sort_unstable();
    places.dedup_by_key(|(set, _)| *set);
    places.sort_unstable_by_key(|&(_, place)| place);
    places.into_iter().map(|(set, _)| set).collect()
}
