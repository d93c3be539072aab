//! Tables over every number of inputs and outputs in which one cell is another than the rest.

use super::{add_table, table_by};
use crate::generate::bytes::full;
use crate::generate::Case;
use crate::reference::Table;
use crate::rng::Rng;

pub fn of_cells(rng: &mut Rng, list: &mut Vec<Case>) {
    for n in 1..=8 {
        for m in 1..=8 {
            let mut tables = all_alike(n, m);
            tables.extend(one_off(n, m));
            tables.extend(one_wanted(n, m));
            tables.extend(one_free(rng, n, m));
            for table in tables {
                add_table(rng, list, &table);
            }
        }
    }
}

/// Nothing, everything wanted, everything free, and wanted and free cells in turn.
fn all_alike(n: usize, m: usize) -> Vec<Table> {
    let all = full(m);
    let turn = |v: usize| if v.count_ones() % 2 == 1 { 0xaa } else { 0x55 };
    vec![
        Table::new(n, m),
        table_by(n, m, |_| [all, 0]),
        table_by(n, m, |_| [0, all]),
        table_by(n, m, |v| [all & turn(v), all & !turn(v)]),
    ]
}

/// One cell is off, at the first vertex, the middle one or the last, of the first output or the
/// last. The others are wanted or free.
fn one_off(n: usize, m: usize) -> Vec<Table> {
    let all = full(m);
    let mut list = Vec::new();
    for off in [0, 1 << (n - 1), (1 << n) - 1] {
        for j in [0, m - 1] {
            let rest = |v: usize| if v == off { all & !(1 << j) } else { all };
            list.push(table_by(n, m, |v| [rest(v), 0]));
            if j == m - 1 {
                list.push(table_by(n, m, |v| [0, rest(v)]));
            }
        }
    }
    list
}

/// One cell is wanted, at the vertex with one input at 1 and at the one with all others at 1.
fn one_wanted(n: usize, m: usize) -> Vec<Table> {
    let mut list = Vec::new();
    for i in 0..n {
        let bit = 1 << (i % m);
        for vertex in [1 << i, full(n) ^ 1 << i] {
            let wanted = |v: usize| if v == usize::from(vertex) { bit } else { 0 };
            list.push(table_by(n, m, |v| [wanted(v), 0]));
        }
    }
    list
}

/// All outputs are wanted at a vertex; the neighbour by each input is free of one output alone, so
/// that no other may go over to it.
fn one_free(rng: &mut Rng, n: usize, m: usize) -> Vec<Table> {
    let mut list = Vec::new();
    for i in 0..n {
        let vertex = rng.below(1 << n);
        let bit = 1 << rng.below(m);
        list.push(table_by(n, m, |v| match v {
            _ if v == vertex => [full(m), 0],
            _ if v == vertex ^ 1 << i => [0, bit],
            _ => [0, 0],
        }));
    }
    list
}
