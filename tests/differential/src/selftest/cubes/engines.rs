//! P by K7's table of cubes, right or with one mistake. It goes by care and value, as an engine
//! may; its entries and primes are its own.

use super::mistakes::Mistake::{self, *};
use crate::cubes::answer_of;
use crate::reference::{below, spread, weight, Table, Term, ENTRIES, MOST_CANDIDATES};

/// The constants by which entries are filled and read.
type Spreads = [usize; 256];

pub struct Engine {
    mistake: Mistake,
    filling: Spreads,
    reading: Spreads,
}

/// Care and value of every cube, in the order of the primes.
fn cubes(n: usize) -> Vec<(u8, u8)> {
    let of_care = |care| below(care).map(move |value| (care, value));
    (0..=full(n)).flat_map(of_care).collect()
}

fn full(n: usize) -> u8 {
    ((1u16 << n) - 1) as u8
}

fn number(spreads: &Spreads, care: u8, value: u8) -> usize {
    spreads[usize::from(care)] + spreads[usize::from(value)]
}

/// A wrong number may lie outside.
fn at(entries: &[u8], number: usize) -> u8 {
    entries.get(number).copied().unwrap_or(0)
}

impl Engine {
    pub fn with(mistake: Mistake) -> Engine {
        let spreads = std::array::from_fn(|byte| spread(byte as u8));
        Engine {
            mistake,
            filling: spreads,
            reading: spreads,
        }
    }

    /// One of the 256 constants is another, where entries are filled, read, or both.
    pub fn with_constant(byte: u8, constant: usize, [filling, reading]: [bool; 2]) -> Engine {
        let mut engine = Engine::with(Nothing);
        if filling {
            engine.filling[usize::from(byte)] = constant;
        }
        if reading {
            engine.reading[usize::from(byte)] = constant;
        }
        engine
    }

    /// P's answer, or 11.
    pub fn answer(&self, table: &Table) -> Result<Vec<u8>, u64> {
        let primes = self.primes(table, &self.entries(table));
        match self.mistake {
            ManyTaken if primes.len() > MOST_CANDIDATES => {
                let bytes = primes.iter().flat_map(|t| [t.care, t.value, t.outputs]);
                let count = [0x70, primes.len() as u8];
                Ok(count.into_iter().chain(bytes).collect())
            }
            RestLeftOut => answer_of(&primes[..primes.len().min(MOST_CANDIDATES)]),
            MostRefused if primes.len() == MOST_CANDIDATES => Err(11),
            _ => answer_of(&primes),
        }
    }

    /// What a vertex may drive.
    fn row(&self, table: &Table, v: u8) -> u8 {
        let v = usize::from(v);
        let other = usize::from(full(table.n)) & !v;
        match self.mistake {
            FreeIsOff => table.on[v],
            FreeForAll if table.dc[v] != 0 => full(table.m),
            DigitsExchanged => table.on[other] | table.dc[other],
            _ => table.on[v] | table.dc[v],
        }
    }

    fn by_halves(&self, entries: &[u8], number: usize, free: usize) -> u8 {
        let by = match self.mistake {
            NextWeightInHalf => weight(free + 1),
            _ => weight(free),
        };
        let (low, high) = (at(entries, number + by), at(entries, number + 2 * by));
        match self.mistake {
            LowHalfLeftOut => high,
            HighHalfLeftOut => low,
            EitherHalf => low | high,
            _ => low & high,
        }
    }

    fn entries(&self, table: &Table) -> Vec<u8> {
        let (inputs, start, end) = match self.mistake {
            TwoThirdsAreOff => (table.n, 0, weight(table.n - 1)),
            TwoThirdsAreFree => (table.n, full(table.m), weight(table.n - 1)),
            EightInputs => (8, 0, ENTRIES),
            _ => (table.n, 0, weight(table.n)),
        };
        let mut entries = vec![start; ENTRIES];
        let mut list = cubes(inputs);
        if self.mistake != FilledUpwards {
            list.reverse();
        }
        for (care, value) in list {
            let number = number(&self.filling, care, value);
            let free = (0..inputs).find(|i| care >> i & 1 == 0);
            if number < end {
                entries[number] = match free {
                    Some(i) => self.by_halves(&entries, number, i),
                    None => self.row(table, value),
                };
            }
        }
        entries
    }

    fn primes(&self, table: &Table, entries: &[u8]) -> Vec<Term> {
        let last = full(table.n);
        let mut list = cubes(table.n);
        match self.mistake {
            FirstValueLeftOut => list.retain(|&(care, value)| care == 0 || value != 0),
            LastValueLeftOut => list.retain(|&(care, value)| care == 0 || value != care),
            FirstCareLeftOut => list.retain(|&(care, _)| care != 0),
            LastCareLeftOut => list.retain(|&(care, _)| care != last),
            ValuesOutsideCare => {
                list = (0..=last)
                    .flat_map(|care| (0..=last).map(move |value| (care, value)))
                    .collect();
            }
            OrderOfNumbers => list.sort_by_key(|&(care, value)| number(&self.reading, care, value)),
            OrderOfValues => list.sort_by_key(|&(care, value)| (value, care)),
            _ => {}
        }
        let with_outputs = |(care, value)| Term {
            care,
            value,
            outputs: self.prime_outputs(entries, care, value),
        };
        let mut primes: Vec<Term> = list.into_iter().map(with_outputs).collect();
        primes.retain(|t| t.outputs != 0);
        if self.mistake == WantedAlone {
            let wanted = table.wanted_cells();
            primes.retain(|t| wanted.iter().any(|&(v, j)| t.holds(v, j)));
        }
        primes
    }

    /// What a prime drives, 0 where the cube is none.
    fn prime_outputs(&self, entries: &[u8], care: u8, value: u8) -> u8 {
        let number = number(&self.reading, care, value);
        let outputs = at(entries, number);
        let tried = self.tried(care);
        let literals = (0..8).filter(|i| tried >> i & 1 == 1);
        let mut wider = literals.map(|i| at(entries, self.without(number, value, i)));
        let prime = match self.mistake {
            OneOutputAlone => return wider.fold(outputs, |own, held| own & !held),
            SharedIsHeld => !wider.any(|held| held & outputs != 0),
            EachLiteral => care == 0 || !wider.all(|held| outputs & !held == 0),
            _ => !wider.any(|held| outputs & !held == 0),
        };
        if prime {
            outputs
        } else {
            0
        }
    }

    /// The literals that are dropped in turn, as a byte.
    fn tried(&self, care: u8) -> u8 {
        let mut literals = (0..8).map(|i| 1 << i).filter(|bit| care & bit != 0);
        match self.mistake {
            FirstLiteralNotTried => care & !literals.next().unwrap_or(0),
            LastLiteralNotTried => care & !literals.next_back().unwrap_or(0),
            _ => care,
        }
    }

    /// The cube's number without this literal.
    fn without(&self, number: usize, value: u8, i: usize) -> usize {
        let digit = 1 + usize::from(value >> i & 1);
        number.wrapping_sub(match self.mistake {
            NextWeightInLiteral => digit * weight(i + 1),
            LeftInValue => weight(i),
            LeftInCare => (digit - 1) * weight(i),
            LiteralsExchanged => (3 - digit) * weight(i),
            _ => digit * weight(i),
        })
    }
}
