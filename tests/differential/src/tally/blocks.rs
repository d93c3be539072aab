//! What the drawn jobs have met of B: a run fails where one of these never came.

use super::never;
use crate::expanded::Held;
use crate::format::BLOCK;

/// The drawn jobs with a B that is read.
#[derive(Default)]
pub struct Blocks {
    /// Those held to the job with R commands, accepted and refused.
    accepted: usize,
    refused: usize,
    /// Accepted ones with an L, C or N behind a B, and how many of these have A or D.
    pub asked: usize,
    pub asked_with_changes: usize,
    /// Refused at a B with 7 and with 8, by the row at which that was met.
    rows: [[usize; BLOCK]; 2],
}

impl Blocks {
    pub fn add(&mut self, held: &Held, number: u64) {
        match number {
            0 => self.accepted += 1,
            _ => self.refused += 1,
        }
        if let Some(row) = held.row {
            self.rows[number as usize - 7][row] += 1;
        }
    }

    pub fn print(&self) {
        println!(
            "{} accepted and {} refused drawn jobs were held to R for B; {} ask behind a B, {} of \
             these with A or D; by the row of a B, 7 came {:?} times and 8 {:?}",
            self.accepted,
            self.refused,
            self.asked,
            self.asked_with_changes,
            self.rows[0],
            self.rows[1]
        );
    }

    pub fn complaints(&self) -> Vec<String> {
        let mut list = never(&[
            (self.accepted, "no accepted drawn job was held to R for B"),
            (self.refused, "no refused drawn job was held to R for B"),
            (self.asked, "no accepted drawn job has L, C or N behind a B"),
            (
                self.asked_with_changes,
                "no accepted drawn job has B, A or D, and L, C or N",
            ),
        ]);
        for (number, rows) in [7, 8].iter().zip(&self.rows) {
            let zero = (0..BLOCK).filter(|&row| rows[row] == 0);
            list.extend(zero.map(|row| format!("row {row} of a drawn B never met {number}")));
        }
        list
    }
}
