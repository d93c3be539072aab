//! Tables, and legal terms for them.

use super::bytes::full;
use super::draft::{block, row, Pairs};
use crate::format::BLOCK;
use crate::reference::{Table, Term};
use crate::rng::Rng;

/// A sound job has at most this many terms; the cases on purpose go up to 66.
pub const MOST_TERMS: usize = 12;

/// Mostly three inputs or more, as a B needs eight vertices.
pub fn sizes(rng: &mut Rng) -> (usize, usize) {
    match rng.below(10) {
        0..=4 => (rng.between(1, 3), rng.between(1, 3)),
        5..=8 => (rng.between(3, 4), rng.between(1, 4)),
        _ => (rng.between(1, 8), rng.between(1, 8)),
    }
}

pub fn random_table(rng: &mut Rng, n: usize, m: usize) -> Table {
    let mut table = Table::new(n, m);
    let wanted = rng.between(1, 9);
    let free = rng.below(16 - wanted);
    let alike = rng.chance(1, 4);
    for v in 0..table.vertices() {
        for j in 0..m {
            match rng.below(16) {
                x if x < wanted => table.on[v] |= 1 << j,
                x if x < wanted + free => table.dc[v] |= 1 << j,
                _ => {}
            }
        }
        if alike && rng.chance(7, 8) {
            // Outputs that are mostly alike give terms with several outputs.
            table.on[v] = if table.on[v] & 1 == 1 { full(m) } else { 0 };
            table.dc[v] = if table.on[v] == 0 && table.dc[v] & 1 == 1 {
                full(m)
            } else {
                0
            };
        }
    }
    table
}

/// A legal term that holds the cell, which is not off: a cube grown from the vertex.
pub fn grow(rng: &mut Rng, table: &Table, v: usize, j: usize) -> Term {
    let mut care = full(table.n);
    let mut inputs: Vec<usize> = (0..table.n).collect();
    rng.shuffle(&mut inputs);
    for i in inputs {
        let wider = care & !(1 << i);
        let legal = table.allowed_outputs(wider, v as u8 & wider) >> j & 1 == 1;
        if legal && rng.chance(3, 4) {
            care = wider;
        }
    }
    let value = v as u8 & care;
    let allowed = table.allowed_outputs(care, value);
    let kept = if rng.chance(2, 3) { 0xff } else { rng.byte() };
    Term {
        care,
        value,
        outputs: (allowed & kept) | 1 << j,
    }
}

/// The cells that a legal term may hold, wanted or free.
pub fn cells_to_hold(table: &Table) -> Vec<(usize, usize)> {
    let on_or_free = |&(v, j): &(usize, usize)| (table.on[v] | table.dc[v]) >> j & 1 == 1;
    table.cells().filter(on_or_free).collect()
}

/// Legal terms that hold the wanted cells, as long as `most` are enough, and some more.
pub fn terms_for(rng: &mut Rng, table: &Table, most: usize) -> Vec<Term> {
    let mut wanted = table.wanted_cells();
    rng.shuffle(&mut wanted);
    let mut list: Vec<Term> = Vec::new();
    for (v, j) in wanted {
        if list.len() < most && !list.iter().any(|t| t.holds(v, j)) {
            list.push(grow(rng, table, v, j));
        }
    }
    let more = rng.below(most - list.len() + 1);
    let cells = cells_to_hold(table);
    for _ in 0..more {
        if !list.is_empty() && rng.chance(1, 6) {
            list.push(rng.pick(&list));
        } else if !cells.is_empty() {
            let (v, j) = rng.pick(&cells);
            list.push(grow(rng, table, v, j));
        }
    }
    rng.shuffle(&mut list);
    list
}

pub fn random_term(rng: &mut Rng, n: usize, m: usize) -> Term {
    let care = rng.byte() & full(n);
    let outputs = rng.between(1, usize::from(full(m))) as u8;
    Term {
        care,
        value: rng.byte() & care,
        outputs,
    }
}

/// Terms first, then a table on which they are legal.
pub fn table_of_terms(rng: &mut Rng, n: usize, m: usize) -> (Table, Vec<Term>) {
    let count = rng.between(1, MOST_TERMS - 2);
    let mut list: Vec<Term> = (0..count).map(|_| random_term(rng, n, m)).collect();
    let table = table_around(rng, n, m, &list);
    for _ in 0..rng.below(3) {
        list.push(rng.pick(&list));
    }
    (table, list)
}

/// A table on which these terms are legal, and hold each wanted cell.
pub fn table_around(rng: &mut Rng, n: usize, m: usize, list: &[Term]) -> Table {
    let mut table = Table::new(n, m);
    let wanted = rng.between(1, 8);
    for (v, j) in table.cells() {
        let held = list.iter().any(|t| t.holds(v, j));
        if held && rng.chance(wanted, 8) {
            table.on[v] |= 1 << j;
        } else if held || rng.chance(1, 12) {
            table.dc[v] |= 1 << j;
        }
    }
    table
}

/// What a B for this first vertex has of the table.
pub fn pairs(table: &Table, first: usize) -> Pairs {
    std::array::from_fn(|i| [table.on[first + i], table.dc[first + i]])
}

/// The rows by R and B. A B stands at each multiple of eight or anywhere, so many times out of 4
/// where it has room.
pub fn rows(rng: &mut Rng, table: &Table) -> Vec<Vec<u8>> {
    let mut list = Vec::new();
    let empty_ones = rng.chance(1, 3);
    let (line, times) = rng.pick(&[(1, 0), (BLOCK, 4), (BLOCK, 2), (1, 3), (1, 1)]);
    let mut v = 0;
    while v < table.vertices() {
        let (on, dc) = (table.on[v], table.dc[v]);
        if v % line == 0 && v + BLOCK <= table.vertices() && rng.chance(times, 4) {
            list.push(block(v as u8, pairs(table, v)));
            v += BLOCK;
            continue;
        }
        if on | dc != 0 || (empty_ones && rng.chance(1, 3)) {
            list.push(row(v as u8, on, dc));
        }
        v += 1;
    }
    if rng.chance(1, 2) {
        rng.shuffle(&mut list);
    }
    list
}
