//! Cases made on purpose for P and its table of cubes: single cells over every size, cubes and
//! their unions, dense tables, and jobs around P.

mod cells;
mod dense;
mod jobs;
mod unions;

pub use dense::two_corners;

use super::draft::draft;
use super::purpose::{add, primes};
use super::tables::rows;
use super::Case;
use crate::reference::{Table, MOST_CANDIDATES};
use crate::rng::Rng;

/// The bytes that P and E answer with at most.
const ROOM: usize = 2 + 3 * MOST_CANDIDATES + 1;

pub fn cubes_on_purpose(rng: &mut Rng) -> Vec<Case> {
    let mut list = Vec::new();
    cells::of_cells(rng, &mut list);
    unions::of_unions(rng, &mut list);
    dense::of_dense_tables(rng, &mut list);
    jobs::of_jobs(rng, &mut list);
    list
}

/// P alone, with the rows by R and B as they come.
fn add_table(rng: &mut Rng, list: &mut Vec<Case>, table: &Table) {
    let parts = [rows(rng, table), primes()];
    add(list, &draft(table.n as u8, table.m as u8, parts), ROOM);
}

/// A table by on and dc of each vertex.
fn table_by(n: usize, m: usize, pair: impl Fn(usize) -> [u8; 2]) -> Table {
    let mut table = Table::new(n, m);
    for v in 0..table.vertices() {
        [table.on[v], table.dc[v]] = pair(v);
    }
    table
}
