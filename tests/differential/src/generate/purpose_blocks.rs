//! Cases made on purpose for B: its vertices and rows, and jobs around it (in
//! `purpose_blocks/jobs.rs`). Each is held to the eight R commands too (`expanded.rs`).

mod jobs;

use super::bytes::full;
use super::draft::{block, draft, page, row, term, Pairs};
use super::purpose::{add, primes};
use super::Case;
use crate::format::BLOCK;
use crate::rng::Rng;
use crate::selftest::ask_all;

type Commands = Vec<Vec<u8>>;

/// Rows over two outputs, no two alike.
const ROWS: Pairs = [
    [1, 2],
    [0, 0],
    [2, 1],
    [3, 0],
    [0, 3],
    [1, 0],
    [0, 1],
    [2, 0],
];

pub fn of_blocks(rng: &mut Rng, list: &mut Vec<Case>) {
    of_vertices(list);
    of_bad_rows(list);
    of_taken_vertices(list);
    of_two_refusals(list);
    of_vertices_too_large(list);
    jobs::of_jobs(rng, list);
}

/// A term for each cell of a B that is not off, and the queries: the one cover has just the wanted
/// ones.
fn asked_cells(n: u8, first: u8, rows: &Pairs) -> Commands {
    let mut commands = Vec::new();
    for (i, [on, dc]) in rows.iter().enumerate() {
        let v = first.wrapping_add(i as u8);
        let outputs = (0..8).map(|j| 1 << j).filter(|bit| (on | dc) & bit != 0);
        commands.extend(outputs.map(|bit| term(full(n.into()), v & full(n.into()), bit)));
    }
    commands.extend(ask_all());
    commands
}

/// Every first vertex over every number of inputs.
fn of_vertices(list: &mut Vec<Case>) {
    for n in 1..=8 {
        for first in 0..=255 {
            let asked = asked_cells(n, first, &ROWS);
            add(list, &draft(n, 2, [vec![block(first, ROWS)], asked]), 99);
        }
    }
    for n in 3..=5u8 {
        for first in 0..=full(n.into()) - 7 {
            let rows = vec![block(first, ROWS)];
            add(list, &draft(n, 2, [rows, primes(), vec![page(0, 9)]]), 999);
        }
    }
}

/// The same rows, without the outputs of m and above.
fn rows_below(m: usize) -> Pairs {
    ROWS.map(|pair| pair.map(|byte| byte & full(m)))
}

fn with_row(rows: Pairs, place: usize, pair: [u8; 2]) -> Pairs {
    let mut rows = rows;
    rows[place] = pair;
    rows
}

/// Pairs that meet 8: a bit that both have, and bit m or above in one.
fn bad_pairs(m: usize) -> Vec<[u8; 2]> {
    let mut list = vec![[1, 1], [1 << (m - 1); 2]];
    if m < 8 {
        list.extend([[1 << m, 0], [0, 1 << m], [0x80, 0], [0, 0x80]]);
    }
    list
}

/// A bad row at each place, with all good vertices.
fn of_bad_rows(list: &mut Vec<Case>) {
    for (n, first) in [(3, 0), (4, 5), (8, 248)] {
        for m in [1, 2, 7, 8] {
            for place in 0..BLOCK {
                for pair in bad_pairs(m) {
                    let rows = with_row(rows_below(m), place, pair);
                    add(list, &draft(n, m as u8, [vec![block(first, rows)]]), 1);
                }
            }
        }
    }
}

/// A vertex that has a row at each place, by an R or a B before; R behind B; rows on both sides.
fn of_taken_vertices(list: &mut Vec<Case>) {
    for (n, first) in [(4, 1), (5, 9), (8, 100), (8, 241)] {
        let by_block = |at: u8| block(first + at, ROWS);
        for place in 0..BLOCK as u8 {
            let by_row = |on, dc| row(first + place, on, dc);
            for rows in [
                vec![by_row(1, 2), by_block(0)],
                vec![by_row(0, 0), by_block(0)],
                vec![by_block(0), by_row(1, 2)],
                vec![by_block(0), by_row(0, 0)],
                vec![by_block(place), by_block(0)],
                vec![by_block(0), by_block(place)],
                // Refused at the second B, the third is not looked at.
                vec![by_block(place), by_block(0), by_block(0)],
            ] {
                add(list, &draft(n, 2, [rows]), 1);
            }
        }
        let sides = [row(first - 1, 0, 3), row(first + 8, 0, 3)];
        for rows in [
            [sides.to_vec(), vec![by_block(0)]].concat(),
            [vec![by_block(0)], sides.to_vec()].concat(),
        ] {
            let asked = asked_cells(n, first, &ROWS);
            add(list, &draft(n, 2, [rows, asked]), 99);
        }
    }
}

/// A taken vertex at one place and a bad row at another or the same: the first one counts, and 7
/// before 8 where both are met.
fn of_two_refusals(list: &mut Vec<Case>) {
    let first = 4;
    for taken in 0..BLOCK {
        for place in 0..BLOCK {
            let bad = block(first, with_row(ROWS, place, [3, 1]));
            let above = block(first, with_row(ROWS, place, [0, 4]));
            let by_row = row(first + taken as u8, 0, 1);
            let by_block = block(first + taken as u8, ROWS);
            for rows in [
                vec![by_row.clone(), bad.clone()],
                vec![by_row, above],
                vec![by_block, bad],
            ] {
                add(list, &draft(5, 2, [rows]), 1);
            }
        }
    }
}

/// 2^n is reached at each row but the first, and not at all, alone and with a bad row at each place;
/// 256 does not wrap, whether the lowest vertices have rows or not.
fn of_vertices_too_large(list: &mut Vec<Case>) {
    let low = |end: u8| (0..end).map(|v| row(v, 1, 2)).collect::<Commands>();
    for n in 1..=8u8 {
        for reached in 1..=BLOCK.min(1 << n) {
            let first = ((1u16 << n) - reached as u16) as u8;
            let mut blocks = vec![block(first, ROWS)];
            for place in 0..BLOCK {
                blocks.push(block(first, with_row(ROWS, place, [3, 2])));
                blocks.push(block(first, with_row(ROWS, place, [0x40, 0])));
            }
            for block in blocks {
                add(list, &draft(n, 2, [vec![block.clone()]]), 1);
                if n < 8 {
                    continue;
                }
                for end in [1, 7] {
                    add(list, &draft(8, 2, [low(end), vec![block.clone()]]), 1);
                }
            }
        }
    }
    // Where it wraps the rows at the lowest vertices would be seen.
    for first in 249..=255 {
        let asked = asked_cells(8, first, &ROWS);
        add(list, &draft(8, 2, [vec![block(first, ROWS)], asked]), 99);
        let off = [[0, 0]; BLOCK];
        add(list, &draft(8, 2, [vec![block(first, off)]]), 1);
    }
}
