//! Jobs around P: the primes used by L and C, with candidates that come and go; buffers that are
//! too short; and rows in several orders.

use super::unions::union;
use super::ROOM;
use crate::format::BLOCK;
use crate::generate::draft::{block, come, draft, go, row};
use crate::generate::purpose::{add, primes};
use crate::generate::tables::{pairs, random_table, rows};
use crate::generate::Case;
use crate::reference::{irredundant_covers, of_terms, Covers, Table, Term, LONGEST};
use crate::rng::Rng;
use crate::selftest::ask_all;

type Commands = Vec<Vec<u8>>;

pub fn of_jobs(rng: &mut Rng, list: &mut Vec<Case>) {
    for n in 1..=8 {
        for _ in 0..6 {
            of_use(rng, list, n);
            of_rooms(rng, list, n);
        }
        for _ in 0..3 {
            of_orders(rng, list, n);
        }
    }
}

/// A table with few primes, and these.
fn small_table(rng: &mut Rng, n: usize) -> (Table, Vec<Term>) {
    loop {
        let m = rng.between(1, 8);
        let table = if n <= 3 && rng.chance(1, 2) {
            random_table(rng, n, m)
        } else {
            union(rng, n, m)
        };
        let found = table.primes();
        let few = (1..=64).contains(&found.len());
        if few && irredundant_covers(&table, &of_terms(&found)) != Covers::TooMany {
            return (table, found);
        }
    }
}

/// P, then L and C; then one of the primes goes, comes again at the end, and all is asked again.
fn of_use(rng: &mut Rng, list: &mut Vec<Case>, n: usize) {
    let (table, found) = small_table(rng, n);
    let number = rng.below(found.len());
    let t = found[number];
    let (given, sizes) = (rows(rng, &table), [n as u8, table.m as u8]);
    let parts = [given.clone(), primes(), ask_all()];
    add(list, &draft(sizes[0], sizes[1], parts), LONGEST);
    // At 64 candidates A needs the room that D made.
    let again = vec![go(number as u8), come(t.care, t.value, t.outputs)];
    let parts = [given, primes(), again, ask_all()];
    add(list, &draft(sizes[0], sizes[1], parts), LONGEST);
}

/// The buffer is one byte short of P's answer, as long as that, and has one byte more for E.
fn of_rooms(rng: &mut Rng, list: &mut Vec<Case>, n: usize) {
    let (table, found) = small_table(rng, n);
    let job = draft(n as u8, table.m as u8, [rows(rng, &table), primes()]);
    let need = 2 + 3 * found.len();
    for room in [0, 1, 2, need - 1, need, need + 1] {
        add(list, &job, room);
    }
}

/// One table by R alone, rising, falling and in any order, with a row for every vertex and for few,
/// and by B with R.
fn of_orders(rng: &mut Rng, list: &mut Vec<Case>, n: usize) {
    let (table, _) = small_table(rng, n);
    let by_row = |v: usize| row(v as u8, table.on[v], table.dc[v]);
    let rising: Commands = (0..table.vertices()).map(by_row).collect();
    let falling: Commands = rising.iter().rev().cloned().collect();
    let mut any = rising.clone();
    rng.shuffle(&mut any);
    let mut few = any.clone();
    few.retain(|row| row[2] | row[3] != 0);
    let mut ways = vec![rising, falling, any, few, rows(rng, &table)];
    if table.vertices() >= BLOCK {
        let by_block = |i: usize| block((i * BLOCK) as u8, pairs(&table, i * BLOCK));
        let blocks: Commands = (0..table.vertices() / BLOCK).map(by_block).collect();
        ways.push(blocks.iter().rev().cloned().collect());
        ways.push(blocks);
    }
    for given in ways {
        let parts = [given, primes()];
        add(list, &draft(n as u8, table.m as u8, parts), ROOM);
    }
}
