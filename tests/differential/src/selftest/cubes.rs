//! K7's numbers and its table of cubes, held to what its sentences say: by hand, over every number,
//! and cell by cell on drawn tables.

mod engines;
mod mistakes;
mod wrong;

use super::{example_primes, Checks};
use crate::cubes::{answer_of, check};
use crate::generate::{draft, random_table, row, two_corners};
use crate::reference::{
    self, cube_number, cube_of, spread, weight, Cubes, Table, Term, ENTRIES, LONGEST,
};
use crate::rng::Rng;

pub fn run(checks: &mut Checks, rng: &mut Rng) {
    numbers_by_hand(checks);
    constants_by_hand(checks);
    numbers_and_cubes(checks);
    example(checks);
    corners(checks);
    answers_alone(checks);
    for n in 1..=8 {
        for m in 1..=8 {
            for kind in 0..4 {
                drawn_table(checks, &drawn(rng, n, m, kind));
            }
        }
    }
    wrong::run(checks, rng);
}

/// Care, value and the number.
fn numbers_by_hand(checks: &mut Checks) {
    for (care, value, number) in [
        (0, 0, 0),
        (1, 0, 1),
        (1, 1, 2),
        (2, 0, 3),
        (3, 0, 4),
        (3, 1, 5),
        (2, 2, 6),
        (3, 2, 7),
        (3, 3, 8),
        (4, 4, 18),
        (0x80, 0, 2_187),
        (0x80, 0x80, 4_374),
        (0x81, 0x80, 4_375),
        (0x55, 0x11, 2 + 9 + 2 * 81 + 729),
        (255, 0, 3_280),
        (255, 1, 3_281),
        (255, 255, 6_560),
    ] {
        let right = cube_number(care, value) == number && cube_of(number) == (care, value);
        checks.check(&format!("the number of care {care}, value {value}"), right);
    }
}

/// A byte and its constant.
fn constants_by_hand(checks: &mut Checks) {
    for (byte, sum) in [
        (0, 0),
        (1, 1),
        (2, 3),
        (3, 4),
        (4, 9),
        (7, 13),
        (0x10, 81),
        (0x0f, 40),
        (0x55, 820),
        (0xaa, 2_460),
        (0x80, 2_187),
        (0xff, 3_280),
    ] {
        checks.check(&format!("the constant of {byte}"), spread(byte) == sum);
    }
}

/// Each number below 3^n is that of just one cube of n inputs, and the constants of care and value
/// sum up to it.
fn numbers_and_cubes(checks: &mut Checks) {
    checks.check("3^8 entries", weight(8) == ENTRIES);
    for n in 1..=8 {
        let end = 1usize << n;
        let mut times = vec![0; weight(n)];
        let mut right = true;
        for (care, value) in (0..end * end).map(|pair| ((pair / end) as u8, (pair % end) as u8)) {
            if value & !care == 0 {
                let number = cube_number(care, value);
                times[number] += 1;
                right &= cube_of(number) == (care, value);
                right &= number == spread(care) + spread(value);
            }
        }
        let once = times.iter().all(|&times| times == 1);
        checks.check(&format!("numbers of cubes of {n} inputs"), right && once);
    }
}

/// Document 003's table: rows 1, 3, 3 and 2 at numbers 4, 5, 7 and 8. Entry 3 is 4 and 5, 6 is 7
/// and 8, 1 is 4 and 7, 2 is 5 and 8; entry 0 is 1 and 2, which share nothing.
fn example(checks: &mut Checks) {
    let mut table = Table::new(2, 2);
    for (v, [on, dc]) in [[0, 1], [1, 2], [3, 0], [2, 0]].into_iter().enumerate() {
        [table.on[v], table.dc[v]] = [on, dc];
    }
    let cubes = Cubes::of(&table);
    let entries = [0, 1, 2, 1, 1, 3, 2, 3, 2];
    checks.check("entries of the example", cubes.entries() == entries);
    let answer = answer_of(&cubes.primes());
    checks.check("primes of the example", answer == Ok(example_primes()));
}

/// Away from a vertex lead eight literals, away from the opposite one the eight others, so 56 pairs
/// lead away from both; they drive all outputs. Behind one literal away from the vertex all but
/// output 0 go, eight primes where some output needs that. Outputs that are nowhere off need no
/// literal, one prime.
fn corners(checks: &mut Checks) {
    for (lower, primes) in [(0, 57), (1, 57), (2, 65), (7, 65), (8, 64)] {
        for vertex in [0, 255, 0x5a] {
            let table = two_corners(vertex, lower);
            let found = Cubes::of(&table).primes();
            let pairs = found.iter().filter(|t| t.care.count_ones() == 2);
            let drive_all = pairs.clone().count() == 56 && pairs.clone().all(|t| t.outputs == 255);
            let right = drive_all && found.len() == primes && table.primes() == found;
            checks.check(&format!("{lower} outputs off at a corner"), right);
        }
    }
}

/// What is asked of P's answer alone lets the right one pass, with room and without, and no other
/// number. 57 primes take 173 bytes, 64 take 194.
fn answers_alone(checks: &mut Checks) {
    for (lower, room, number) in [
        (1, 172, 14),
        (1, 173, 0),
        (1, 174, 0),
        (2, 0, 11),
        (2, LONGEST, 11),
        (8, 193, 14),
        (8, 194, 0),
        (8, LONGEST, 0),
    ] {
        let table = two_corners(0x33, lower);
        let by_row = |v: usize| row(v as u8, table.on[v], table.dc[v]);
        let rows = (0..256).map(by_row).collect();
        let job = draft(8, 8, [rows, vec![vec![b'P']]]).job();
        let mut out = reference::run(&job, &vec![0; room]).expect("small enough");
        let held = check(&job, &out).ok().flatten();
        let right = held.is_some_and(|held| held.dense() && held.number == number);
        checks.check("P by its answer alone", right);
        if number != 0 {
            out.number = 11 + 14 - number;
            checks.check("11 for 14 or 14 for 11", check(&job, &out).is_err());
        }
    }
}

/// Sparse, dense, with many free cells, or as the jobs have them.
fn drawn(rng: &mut Rng, n: usize, m: usize, kind: usize) -> Table {
    let (wanted, free) = match kind {
        0 => (2, 1),
        1 => (12, 3),
        2 => (3, 9),
        _ => return random_table(rng, n, m),
    };
    let mut table = Table::new(n, m);
    for (v, j) in table.cells() {
        match rng.below(16) {
            x if x < wanted => table.on[v] |= 1 << j,
            x if x < wanted + free => table.dc[v] |= 1 << j,
            _ => {}
        }
    }
    table
}

fn drawn_table(checks: &mut Checks, table: &Table) {
    let cubes = Cubes::of(table);
    let name = |what: &str| format!("{what}, {} inputs, {} outputs", table.n, table.m);
    let entries = cubes.entries();
    checks.check(&name("3^n entries"), entries.len() == weight(table.n));
    let by_cells = |number: usize| {
        let (care, value) = cube_of(number);
        let own = driven(table, care, value);
        own == entries[number] && own == table.allowed_outputs(care, value)
    };
    let right = (0..entries.len()).all(by_cells);
    checks.check(&name("entries by cells"), right);
    let halves = |number: usize, i: usize| cubes.by_halves(number, i) == entries[number];
    let any_input = |number: usize| {
        let mut free = (0..table.n).filter(|i| cube_of(number).0 >> i & 1 == 0);
        free.all(|i| halves(number, i))
    };
    let right = (0..entries.len()).all(any_input);
    checks.check(&name("halves by any free input"), right);
    let primes = cubes.primes();
    checks.check(&name("primes"), primes == table.primes_by_wider_cubes());
    checks.check(&name("primes, searched"), primes == table.primes_by_cubes());
    if table.n <= 4 && table.m <= 4 {
        checks.check(&name("primes by terms"), primes == table.primes_by_terms());
    }
    let order = |two: &[Term]| (two[0].care, two[0].value) < (two[1].care, two[1].value);
    checks.check(&name("order of primes"), primes.windows(2).all(order));
}

/// The outputs whose cells in the cube are all wanted or free.
fn driven(table: &Table, care: u8, value: u8) -> u8 {
    let all_of = |j: usize| {
        let cell = |v: usize| table.cell(v, j) != reference::Cell::Off;
        (0..table.vertices()).all(|v| (v as u8 ^ value) & care != 0 || cell(v))
    };
    (0..table.m).filter(|&j| all_of(j)).map(|j| 1 << j).sum()
}
