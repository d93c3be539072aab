//! Tables that are a cube, all but a cube, or a union of cubes.

use super::{add_table, table_by};
use crate::generate::bytes::full;
use crate::generate::tables::random_term;
use crate::generate::Case;
use crate::reference::{cube_of, weight, Table, Term};
use crate::rng::Rng;

pub fn of_unions(rng: &mut Rng, list: &mut Vec<Case>) {
    of_single_cubes(rng, list);
    of_every_cube(rng, list);
    of_missing_cubes(rng, list);
    for n in 1..=8 {
        for m in 1..=8 {
            let table = union(rng, n, m);
            add_table(rng, list, &table);
        }
    }
}

/// Each cube of up to four inputs; of up to seven, each care with a drawn value.
fn of_single_cubes(rng: &mut Rng, list: &mut Vec<Case>) {
    for n in 1..=4 {
        for (care, value) in (0..weight(n)).map(cube_of) {
            add_cube(rng, list, n, care, value);
        }
    }
    for n in 5..=7 {
        for care in 0..=full(n) {
            let value = rng.byte() & care;
            add_cube(rng, list, n, care, value);
        }
    }
}

/// Each of the 6,561 cubes of eight inputs is a prime of one table: those of a care whose values
/// have an odd number of ones, or an even one, are no neighbours. Of eight literals there are 128
/// each; their tables are halved.
fn of_every_cube(rng: &mut Rng, list: &mut Vec<Case>) {
    for care in 0..=255u8 {
        for odd in [0, 1] {
            for half in 0..=usize::from(care == 255) {
                let m = rng.between(1, 8);
                let outputs = rng.between(1, usize::from(full(m))) as u8;
                let inside = |v: usize| {
                    let value = v as u8 & care;
                    value.count_ones() % 2 == odd && (care != 255 || v / 128 == half)
                };
                let table = table_by(8, m, |v| [if inside(v) { outputs } else { 0 }, 0]);
                add_table(rng, list, &table);
            }
        }
    }
}

fn add_cube(rng: &mut Rng, list: &mut Vec<Case>, n: usize, care: u8, value: u8) {
    let m = rng.between(1, 8);
    let outputs = rng.between(1, usize::from(full(m))) as u8;
    let cube = Term {
        care,
        value,
        outputs,
    };
    let table = cubes(rng, n, m, &[cube]);
    add_table(rng, list, &table);
}

/// Everything but a cube with few literals or with many is wanted or free.
fn of_missing_cubes(rng: &mut Rng, list: &mut Vec<Case>) {
    for n in 1..=8 {
        for turn in 0..6 {
            let m = rng.between(1, 8);
            let kept = rng.byte();
            let care = full(n)
                & if turn % 2 == 0 {
                    kept
                } else {
                    kept | rng.byte()
                };
            let off = Term {
                care,
                value: rng.byte() & care,
                outputs: rng.between(1, usize::from(full(m))) as u8,
            };
            let mut table = cubes(rng, n, m, &[off]);
            for v in 0..table.vertices() {
                let rest = full(m) & !(table.on[v] | table.dc[v]);
                [table.on[v], table.dc[v]] = if turn < 3 { [rest, 0] } else { [0, rest] };
            }
            add_table(rng, list, &table);
        }
    }
}

/// Cells that one of the terms holds are wanted, or one in four is free.
fn cubes(rng: &mut Rng, n: usize, m: usize, terms: &[Term]) -> Table {
    let holds = |t: &Term, v: usize| (v as u8 ^ t.value) & t.care == 0;
    let not_off = |v: usize| {
        let held = terms.iter().filter(|t| holds(t, v));
        held.fold(0, |outputs, t| outputs | t.outputs)
    };
    let mut table = table_by(n, m, |v| [not_off(v), 0]);
    if rng.chance(1, 2) {
        for v in 0..table.vertices() {
            let free = rng.byte() & rng.byte();
            [table.on[v], table.dc[v]] = [table.on[v] & !free, table.on[v] & free];
        }
    }
    table
}

/// A union of two to six drawn cubes.
pub fn union(rng: &mut Rng, n: usize, m: usize) -> Table {
    let count = rng.between(2, 6);
    let terms: Vec<Term> = (0..count).map(|_| random_term(rng, n, m)).collect();
    cubes(rng, n, m, &terms)
}
