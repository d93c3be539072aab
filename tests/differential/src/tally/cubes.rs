//! What P has met: a run fails where one of these never came.

use super::never;
use crate::cubes::Held;
use crate::reference::MOST_CANDIDATES;
use std::cmp::Ordering::{Equal, Greater, Less};

/// The jobs with a P that was held to K7.
#[derive(Default)]
pub struct Primes {
    /// By inputs, those made on purpose and the drawn ones.
    on_purpose: [usize; 8],
    drawn: [usize; 8],
    /// Refused with 11 and with 14.
    too_many: usize,
    no_room: usize,
    /// Dense tables of 8 inputs and 8 outputs, with fewer than 64 primes, with 64 and with more.
    dense: [usize; 3],
}

impl Primes {
    pub fn add(&mut self, held: &Held, drawn: bool) {
        let table = &held.table;
        let by_inputs = if drawn {
            &mut self.drawn
        } else {
            &mut self.on_purpose
        };
        by_inputs[table.n - 1] += 1;
        self.too_many += usize::from(held.number == 11);
        self.no_room += usize::from(held.number == 14);
        if table.n == 8 && table.m == 8 && held.dense() {
            let class = match held.primes.cmp(&MOST_CANDIDATES) {
                Less => 0,
                Equal => 1,
                Greater => 2,
            };
            self.dense[class] += 1;
        }
    }

    pub fn print(&self) {
        println!(
            "P was held to K7 by 1 to 8 inputs {:?} times in jobs made on purpose and {:?} times \
             in drawn ones, {} refused with 11 and {} with 14; of dense tables of 8 inputs and 8 \
             outputs {} have fewer than 64 primes, {} have 64 and {} more",
            self.on_purpose,
            self.drawn,
            self.too_many,
            self.no_room,
            self.dense[0],
            self.dense[1],
            self.dense[2]
        );
    }

    pub fn complaints(&self) -> Vec<String> {
        let mut list = never(&[
            (self.too_many, "no P was refused with 11"),
            (self.no_room, "no P was refused with 14"),
            (self.dense[0], "no dense table has fewer than 64 primes"),
            (self.dense[1], "no dense table has 64 primes"),
            (self.dense[2], "no dense table has more than 64 primes"),
        ]);
        for (kind, times) in [
            ("made on purpose", &self.on_purpose),
            ("drawn", &self.drawn),
        ] {
            let zero = (1..=8).filter(|n| times[n - 1] == 0);
            list.extend(zero.map(|n| format!("no job {kind} has P over {n} inputs")));
        }
        list
    }
}
