//! What K7 says of each P, asked of its answer: the primes are those read off the table of cubes,
//! 11 comes where there are more than 64, and 14 where their bytes are more than the buffer has.

use crate::reference::{Cubes, Outcome, Table, Term, MOST_CANDIDATES};
use crate::walk;

/// A P that was held to K7.
pub struct Held {
    pub table: Table,
    /// The primes, also where they are too many.
    pub primes: usize,
    /// 0 where it was answered, or 11 or 14.
    pub number: u64,
}

/// Holds a job's P to K7. The engine's outcome is this one by now. None where no P was come to.
pub fn check(job: &[u8], outcome: &Outcome) -> Result<Option<Held>, String> {
    let Some((table, answer)) = walk::primes(job, outcome) else {
        return Ok(None);
    };
    let primes = Cubes::of(&table).primes();
    let due = answer_of(&primes).and_then(|due| {
        let fits = due.len() <= outcome.buffer.len();
        fits.then_some(due).ok_or(14)
    });
    if due.as_deref() != answer.as_ref().map(|seen| *seen) {
        return Err(format!("by K7's table P has {} primes", primes.len()));
    }
    Ok(Some(Held {
        table,
        primes: primes.len(),
        number: answer.err().unwrap_or(0),
    }))
}

/// P's answer with these primes, or 11.
pub fn answer_of(primes: &[Term]) -> Result<Vec<u8>, u64> {
    if primes.len() > MOST_CANDIDATES {
        return Err(11);
    }
    let bytes = primes.iter().flat_map(|t| [t.care, t.value, t.outputs]);
    Ok([0x70, primes.len() as u8]
        .into_iter()
        .chain(bytes)
        .collect())
}

impl Held {
    /// Three cells out of four, or more, are wanted or free.
    pub fn dense(&self) -> bool {
        let table = &self.table;
        let not_off = |v: usize| (table.on[v] | table.dc[v]).count_ones() as usize;
        let cells = (0..table.vertices()).map(not_off).sum::<usize>();
        4 * cells >= 3 * table.m * table.vertices()
    }
}
