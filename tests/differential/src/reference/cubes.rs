//! K7's own construction: cubes numbered in base three, and a table of the outputs that each may
//! drive. `table.rs` finds the primes without it.

use super::table::{Table, Term};

/// The cubes of eight inputs: 3^8.
pub const ENTRIES: usize = 6_561;

/// The weight of input i in a cube's number.
pub fn weight(i: usize) -> usize {
    3usize.pow(i as u32)
}

/// Digit i of a cube's number: 0 where input i is free, 1 where it is fixed at 0, 2 where at 1.
fn digit(care: u8, value: u8, i: usize) -> usize {
    match (care >> i & 1, value >> i & 1) {
        (0, _) => 0,
        (_, 0) => 1,
        _ => 2,
    }
}

/// The number of a cube, digit by digit.
pub fn cube_number(care: u8, value: u8) -> usize {
    (0..8).map(|i| digit(care, value, i) * weight(i)).sum()
}

/// The cube that has this number: its care and value.
pub fn cube_of(number: usize) -> (u8, u8) {
    let (mut care, mut value) = (0, 0);
    for i in 0..8 {
        match number / weight(i) % 3 {
            0 => {}
            1 => care |= 1 << i,
            _ => {
                care |= 1 << i;
                value |= 1 << i;
            }
        }
    }
    (care, value)
}

/// For a byte, the sum of 3^i over its ones.
pub fn spread(byte: u8) -> usize {
    let ones = (0..8).filter(|i| byte >> i & 1 == 1);
    ones.map(weight).sum()
}

/// The outputs that each cube of a table may drive.
pub struct Cubes {
    n: usize,
    entries: [u8; ENTRIES],
}

impl Cubes {
    /// A half has one free input less and a larger number, so the last entry comes first.
    pub fn of(table: &Table) -> Cubes {
        let mut cubes = Cubes {
            n: table.n,
            entries: [0; ENTRIES],
        };
        for number in (0..weight(table.n)).rev() {
            let (care, value) = cube_of(number);
            let v = usize::from(value);
            let free = (0..table.n).find(|i| care >> i & 1 == 0);
            cubes.entries[number] = match free {
                Some(i) => cubes.by_halves(number, i),
                None => table.on[v] | table.dc[v],
            };
        }
        cubes
    }

    /// What both halves may drive, a free input at 0 and at 1.
    pub fn by_halves(&self, number: usize, free: usize) -> u8 {
        self.entries[number + weight(free)] & self.entries[number + 2 * weight(free)]
    }

    /// The first 3^n.
    pub fn entries(&self) -> &[u8] {
        &self.entries[..weight(self.n)]
    }

    /// A cube that may drive something, and without any one literal not all of that; by care, then
    /// value.
    pub fn primes(&self) -> Vec<Term> {
        let end = 1usize << self.n;
        let mut list = Vec::new();
        for care in (0..end).map(|care| care as u8) {
            for value in (0..=care).filter(|value| value & !care == 0) {
                let outputs = self.entries[spread(care) + spread(value)];
                if outputs != 0 && !self.held_without_one(care, value, outputs) {
                    list.push(Term {
                        care,
                        value,
                        outputs,
                    });
                }
            }
        }
        list
    }

    /// Whether the cube without some one of its literals may drive these outputs too.
    fn held_without_one(&self, care: u8, value: u8, outputs: u8) -> bool {
        let mut literals = (0..8).map(|i| 1 << i).filter(|bit| care & bit != 0);
        literals.any(|bit| {
            let wider = cube_number(care & !bit, value & !bit);
            outputs & !self.entries[wider] == 0
        })
    }
}
