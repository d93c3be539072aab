//! Tables with many primes: dense ones of eight inputs and eight outputs, those with just about 64
//! primes, and parities.

use super::{add_table, table_by};
use crate::generate::bytes::full;
use crate::generate::Case;
use crate::reference::Table;
use crate::rng::Rng;

pub fn of_dense_tables(rng: &mut Rng, list: &mut Vec<Case>) {
    for turn in 0..16 {
        let table = dense(rng, 8, 8, 2 + 16 * turn);
        add_table(rng, list, &table);
    }
    for count in 62..=67 {
        for (n, m) in [(8, 8), (8, 8), (8, 8), (8, 4), (8, 1), (7, 8), (6, 3)] {
            let table = with_primes(rng, n, m, count);
            add_table(rng, list, &table);
        }
    }
    for lower in 0..=8 {
        let table = two_corners(rng.byte(), lower);
        add_table(rng, list, &table);
    }
    of_parities(rng, list);
}

/// Every cell is wanted or free.
fn no_off_cell(rng: &mut Rng, n: usize, m: usize) -> Table {
    let mut table = Table::new(n, m);
    for v in 0..table.vertices() {
        table.on[v] = rng.byte() & full(m);
        table.dc[v] = full(m) & !table.on[v];
    }
    table
}

fn turn_off(rng: &mut Rng, table: &mut Table) {
    let (v, bit) = (rng.below(table.vertices()), 1 << rng.below(table.m));
    table.on[v] &= !bit;
    table.dc[v] &= !bit;
}

/// At most this many cells are off.
fn dense(rng: &mut Rng, n: usize, m: usize, off: usize) -> Table {
    let mut table = no_off_cell(rng, n, m);
    (0..off).for_each(|_| turn_off(rng, &mut table));
    table
}

/// A dense table with just this many primes: cells are turned off one by one, but for those that
/// make too many primes; anew where none leads on.
fn with_primes(rng: &mut Rng, n: usize, m: usize, count: usize) -> Table {
    loop {
        let mut table = no_off_cell(rng, n, m);
        for _ in 0..40 {
            let before = table.clone();
            turn_off(rng, &mut table);
            let found = table.primes().len();
            if found == count {
                return table;
            }
            if found > count {
                table = before;
            }
        }
    }
}

/// Output 0 is off at a vertex and at the opposite one; the outputs below `lower`, 0 aside, at the
/// vertex alone, and the others nowhere.
pub fn two_corners(vertex: u8, lower: usize) -> Table {
    let off = |v: usize| match v as u8 ^ vertex {
        0 => full(lower) | 1,
        255 => 1,
        _ => 0,
    };
    table_by(8, 8, |v| [!off(v) & 0x0f, !off(v) & 0xf0])
}

/// Odd and even parity of 7 and 8 inputs, for one output and for all of eight; with the other half
/// free; and some outputs odd, some even.
fn of_parities(rng: &mut Rng, list: &mut Vec<Case>) {
    for n in [7, 8] {
        for m in [1, 8] {
            let even = |v: usize, outputs: u8| if v.count_ones() % 2 == 1 { 0 } else { outputs };
            let all = full(m);
            for table in [
                table_by(n, m, |v| [even(v, all), 0]),
                table_by(n, m, |v| [all & !even(v, all), 0]),
                table_by(n, m, |v| [0, even(v, all)]),
                table_by(n, m, |v| [even(v, all), all & !even(v, all)]),
                table_by(n, m, |v| [even(v, all) ^ 0x15 & all, 0]),
            ] {
                add_table(rng, list, &table);
            }
        }
    }
}
