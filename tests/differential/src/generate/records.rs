//! Jobs for the records that they leave: made on purpose for the weights of K5, the prices of K6, N of
//! K8, the blocks of K10 and the ranges of K11, some of the others made on purpose, and drawn ones.

use super::bytes::full;
use super::damage::{damaged, wild};
use super::draft::{block, come, draft, go, prices, range, ranged_page, ready, row, term, Draft};
use super::purpose::{on_purpose, primes};
use super::purpose_products::counted;
use super::sound::sound;
use crate::format::BLOCK;
use crate::reference::{Block, Range, LONGEST};
use crate::rng::Rng;
use crate::selftest::{
    bytes, dearest, first_term_gone, marked, multiplied, odd_parity, priced, prime_gone,
    seventh_term, EXAMPLE,
};

type Commands = Vec<Vec<u8>>;
type Jobs = Vec<Vec<u8>>;

/// Each of this stride is taken of the jobs made on purpose for other things.
const STRIDE: usize = 20;
const DRAWN: usize = 3_000;

pub fn records_on_purpose(rng: &mut Rng) -> Jobs {
    let mut list = Vec::new();
    of_each_command(&mut list);
    of_every_care(&mut list);
    of_every_number(&mut list);
    of_primes(&mut list);
    of_prices(&mut list);
    of_products(rng, &mut list);
    of_ready(&mut list);
    of_ranges(&mut list);
    of_lengths(&mut list);
    let mut others: Jobs = on_purpose(rng).into_iter().map(|case| case.job).collect();
    // Those that differ in their buffers alone leave one record.
    others.dedup();
    list.extend(others.into_iter().step_by(STRIDE));
    list
}

/// The job cut behind each command from this one on, so that the record of each is seen.
fn behind_each(list: &mut Jobs, draft: &Draft, first: usize) {
    let ends = first..=draft.commands.len();
    list.extend(ends.map(|end| draft.commands[..end].concat()));
}

/// The jobs of the paper and those where candidates come and go, command by command.
fn of_each_command(list: &mut Jobs) {
    for draft in [
        marked('a'),
        marked('c'),
        seventh_term(),
        first_term_gone(),
        prime_gone(),
    ] {
        behind_each(list, &draft, 0);
    }
}

/// Every vertex of eight inputs, by B.
fn all_rows(pair: impl Fn(u8) -> [u8; 2]) -> Commands {
    let first = |i: usize| (i * BLOCK) as u8;
    let pairs = |i: usize| std::array::from_fn(|at| pair(first(i) + at as u8));
    (0..256 / BLOCK)
        .map(|i| block(first(i), pairs(i)))
        .collect()
}

/// A term with each care, 64 in a job, by T and by A.
fn of_every_care(list: &mut Jobs) {
    for first in [0, 64, 128, 192] {
        for by in [term, come] {
            let terms = (first..=first + 63).map(|care| by(care, care & 0xa5, 1));
            let parts = [all_rows(|_| [0, 1]), terms.collect()];
            list.push(draft(8, 1, parts).job());
        }
    }
}

/// Of 64 candidates each one goes, and another comes; last, all of them go. No two neighbours have
/// the same weight.
fn of_every_number(list: &mut Jobs) {
    let literals = |i: usize| full(1 + i % 8);
    let standing: Commands = (0..64).map(|i| term(literals(i), 0, 1)).collect();
    let rows = all_rows(|_| [1, 0]);
    let job = |changes: Commands| draft(8, 1, [rows.clone(), standing.clone(), changes]);
    for number in 0..64 {
        list.push(job(vec![go(number)]).job());
        list.push(job(vec![go(number), come(0, 0, 1)]).job());
    }
    for refused in [come(3, 0, 1), term(3, 0, 1), come(0, 1, 1), go(64), go(255)] {
        list.push(job(vec![refused]).job());
    }
    // The first and one in the middle in turn.
    let all_go = |i: u8| go(i % 2 * ((63 - i) / 2));
    let behind_terms = 1 + rows.len() + standing.len();
    behind_each(list, &job((0..64).map(all_go).collect()), behind_terms);
}

/// Primes of one number of literals, and of 0 to 7 in one table; there candidates go and come.
fn of_primes(list: &mut Jobs) {
    for n in 1..=8 {
        behind_each(list, &odd_parity(n), 1 << (n - 1));
    }
    let one_vertex = draft(8, 1, [vec![row(90, 1, 0)], primes()]);
    behind_each(list, &one_vertex, 2);
    // Output j is wanted where the j lowest inputs are 1.
    let wanted = |v: u8| (0..8).map(|j| u8::from(v & full(j) == full(j)) << j).sum();
    let rows = all_rows(|v| [wanted(v), 0]);
    let changes = vec![
        go(2),
        come(255, 3, 1),
        go(0),
        come(0, 0, 1),
        go(4),
        come(6, 2, 1),
        vec![b'C'],
        come(128, 0, 1),
        go(0),
        go(7),
    ];
    let job = draft(8, 8, [rows.clone(), primes(), changes]);
    behind_each(list, &job, rows.len());
}

/// Prices for the jobs with W: each alone, at their ends, and all different.
const PRICES: [[u8; 3]; 7] = [
    [0, 0, 0],
    [50, 0, 0],
    [0, 50, 0],
    [0, 0, 50],
    [50, 50, 50],
    [7, 5, 3],
    [1, 1, 0],
];

/// Under each prices: the jobs of the paper and those where candidates come and go, command by
/// command; every care with every number of outputs; the highest weights. And a W that is refused.
fn of_prices(list: &mut Jobs) {
    for own in PRICES {
        for draft in [marked('a'), seventh_term(), prime_gone()] {
            behind_each(list, &priced(draft, own), 1);
        }
        list.push(priced(dearest(), own).job());
        for first in [0, 64, 128, 192] {
            let outputs = |care: u8| full(1 + usize::from(care) % 8);
            let terms = (first..=first + 63).map(|care| come(care, care & 0x5a, outputs(care)));
            let rows = all_rows(|_| [0, 255]);
            list.push(draft(8, 8, [vec![prices(own)], rows, terms.collect()]).job());
        }
    }
    let refused = [[51, 0, 0], [0, 51, 0], [0, 0, 51], [255, 255, 255]];
    for own in refused {
        list.push(priced(marked('a'), own).job());
        list.push(priced(priced(marked('a'), own), [7, 5, 3]).job());
    }
}

/// N leaves all but the place, and where it is refused, with 17 among others, that too; behind it
/// candidates go and come.
fn of_products(rng: &mut Rng, list: &mut Jobs) {
    for case in "acdegh".chars() {
        behind_each(list, &multiplied(marked(case)), 1);
    }
    for (plan, _) in counted() {
        let asked = vec![vec![b'N'], go(0), come(255, 0, 1), vec![b'N']];
        list.push(plan.job(rng, asked).job());
    }
}

/// Blocks among terms, command by command, at the usual prices and at others; of 64 each one goes;
/// and blocks that are refused.
fn of_ready(list: &mut Jobs) {
    let f = |outputs, v: usize, weight| ready(&Block::new(outputs, [0, v, 255], weight));
    let standing = || {
        let mut blocks = vec![f(1, 8, 850), term(3, 0, 1), f(255, 127, 0), come(0, 0, 6)];
        blocks.extend([f(128, 254, 256), term(255, 255, 255), f(1, 8, 850)]);
        blocks
    };
    let rows = all_rows(|_| [0, 255]);
    for number in 0..7 {
        let changes = vec![
            go(number),
            vec![b'C'],
            go(0),
            come(5, 1, 9),
            vec![b'N'],
            go(4),
        ];
        let job = draft(8, 8, [rows.clone(), standing(), changes]);
        behind_each(list, &job, rows.len() + 1);
        for own in PRICES {
            list.push(priced(job.clone(), own).job());
        }
    }
    let many: Commands = (0..64).map(|i| f(1 + i as u8, i, 13 * i as u16)).collect();
    for number in 0..64 {
        let job = draft(8, 8, [rows.clone(), many.clone(), vec![go(number)]]);
        list.push(job.job());
    }
    let refused = [f(0, 1, 1), f(8, 1, 1), f(1, 1, 851), f(1, 1, 1)];
    for last in refused {
        let stand = vec![row(0, 7, 0), ready(&Block::new(5, [0], 9)), last];
        list.push(draft(8, 3, [stand]).job());
    }
}

/// Ranges of terms and blocks, command by command, at the usual prices and at others: they come, are
/// replaced, move and go; of 64 each one goes; and G commands that are refused.
fn of_ranges(list: &mut Jobs) {
    let g = |number, low, high| range(number, Range { low, high });
    let f = |v: usize, weight| ready(&Block::new(1, [0, v], weight));
    let rows = all_rows(|_| [0, 1]);
    let standing = vec![term(3, 0, 1), f(255, 850), come(0, 0, 1), f(8, 0)];
    let changes = vec![
        g(0, 0, 850),
        g(3, 256, 513),
        g(1, 849, 850),
        ranged_page(0, 9),
        g(0, 2, 2),
        go(2),
        come(255, 7, 1),
        g(3, 0, 0),
        go(0),
        vec![b'C'],
        come(1, 0, 1),
        go(2),
        g(0, 5, 77),
    ];
    let job = draft(8, 1, [rows.clone(), standing.clone(), changes]);
    behind_each(list, &job, rows.len() + 4);
    for own in PRICES {
        list.push(priced(job.clone(), own).job());
        let by_primes = vec![g(0, 7, 8), come(1, 1, 1), g(1, 3, 300), go(0)];
        let by_primes = draft(8, 1, [rows.clone(), primes(), by_primes]);
        behind_each(list, &priced(by_primes, own), rows.len() + 2);
    }
    let many: Commands = (0..64).map(|_| term(0, 0, 1)).collect();
    let ranges: Commands = (0..64)
        .map(|i| g(i, 13 * u16::from(i), 850 - u16::from(i) / 2))
        .collect();
    for number in 0..64 {
        let gone = vec![go(number), come(3, 0, 1)];
        let job = draft(8, 1, [rows.clone(), many.clone(), ranges.clone(), gone]);
        list.push(job.job());
    }
    for refused in [g(4, 0, 0), g(0, 1, 0), g(1, 0, 851), g(255, 9, 8)] {
        for before in [vec![], vec![g(0, 3, 4)]] {
            let parts = [
                rows.clone(),
                standing.clone(),
                before,
                vec![refused.clone()],
            ];
            list.push(draft(8, 1, parts).job());
        }
    }
}

/// Jobs as long as they may be and longer, whose first commands leave a record; in the last one the
/// answers are too long.
fn of_lengths(list: &mut Jobs) {
    let example = bytes(EXAMPLE);
    for length in [LONGEST, LONGEST + 1, 2 * LONGEST + example.len()] {
        let mut job = example.clone();
        job.resize(length, b'E');
        list.push(job);
    }
    list.push([vec![b'I', 1, 1], vec![b'C'; LONGEST - 3]].concat());
}

pub fn records_drawn(rng: &mut Rng) -> Jobs {
    (0..DRAWN).map(|_| drawn(rng)).collect()
}

/// Sound, damaged, or sound and cut: behind one of its commands or anywhere.
fn drawn(rng: &mut Rng) -> Vec<u8> {
    match rng.below(12) {
        0..=2 => sound(rng).job(),
        3..=5 => damaged(rng).job,
        6 => wild(rng).job,
        7..=10 => {
            let commands = sound(rng).commands;
            let end = rng.between(1, commands.len() - 1);
            commands[..end].concat()
        }
        _ => {
            let mut job = sound(rng).job();
            job.truncate(rng.below(job.len()));
            job
        }
    }
}
