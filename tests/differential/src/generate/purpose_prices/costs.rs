//! Jobs whose cheapest goes by the prices: equal costs, cost 0, the highest costs, and candidates
//! with up to eight outputs.

use crate::generate::bytes::full;
use crate::generate::draft::{come, draft, go, page, prices, row, term, Draft};
use crate::generate::purpose::{add, all_wanted, minterms, primes};
use crate::generate::tables::{random_table, rows};
use crate::generate::{drawn_prices, Case};
use crate::reference::LONGEST;
use crate::rng::Rng;
use crate::selftest::{
    ask_all, dearest, first_term_gone, marked, odd_parity, priced, prime_gone, seventh_term,
};

type Commands = Vec<Vec<u8>>;

/// The usual ones, each price alone, and pairs at which the cheapest of case d changes.
const LISTS: [[u8; 3]; 20] = [
    [1, 1, 0],
    [0, 0, 0],
    [1, 0, 0],
    [0, 1, 0],
    [0, 0, 1],
    [50, 0, 0],
    [0, 50, 0],
    [0, 0, 50],
    [50, 50, 0],
    [50, 0, 50],
    [0, 50, 50],
    [50, 50, 50],
    [2, 1, 0],
    [3, 2, 0],
    [5, 2, 0],
    [2, 1, 5],
    [0, 1, 1],
    [1, 1, 1],
    [1, 49, 50],
    [49, 24, 7],
];

pub fn of_costs(rng: &mut Rng, list: &mut Vec<Case>) {
    for prices in LISTS {
        for job in jobs() {
            add(list, &priced(job, prices), LONGEST);
        }
    }
    of_drawn_outputs(rng, list);
}

/// Jobs without W, for which each list of prices is set.
fn jobs() -> Vec<Draft> {
    let mut list: Vec<Draft> = "acdefgh".chars().map(marked).collect();
    list.extend([seventh_term(), first_term_gone(), prime_gone()]);
    list.extend([odd_parity(3), odd_parity(7), dearest()]);
    list.extend([growing_outputs(false), growing_outputs(true)]);
    list.extend([one_for_all(), all_may_drive(), literals(), many_alike()]);
    list
}

/// One cube that drives one output more each time; only output 0 is wanted. Then the first goes.
fn growing_outputs(falling: bool) -> Draft {
    let mut terms: Commands = (1..=8).map(|count| term(3, 0, full(count))).collect();
    if falling {
        terms.reverse();
    }
    let first_goes = [vec![go(0)], ask_all()].concat();
    draft(2, 8, [vec![row(0, 1, 254)], terms, ask_all(), first_goes])
}

/// Eight terms with an output each, or one with all of them: the connections are as many.
fn one_for_all() -> Draft {
    let mut terms: Commands = (0..8).map(|j| term(3, 0, 1 << j)).collect();
    terms.insert(4, term(3, 0, 255));
    let split = vec![come(3, 0, 0x0f), come(3, 0, 0xf0), vec![b'C'], go(4)];
    let parts = [vec![row(0, 255, 0)], terms, ask_all(), split, ask_all()];
    draft(2, 8, parts)
}

/// One cell is wanted and all others are free: the only prime drives all eight outputs.
fn all_may_drive() -> Draft {
    let mut rows: Commands = (1..8).map(|v| row(v, 0, 255)).collect();
    rows.push(row(0, 1, 254));
    draft(3, 8, [rows, primes(), ask_all()])
}

/// A wanted vertex by terms of eight literals down to none: one literal is not charged.
fn literals() -> Draft {
    let free = (1..=255).map(|v| row(v, 0, 1));
    let rows = [vec![row(0, 1, 0)], free.collect()].concat();
    let terms = (0..=8).rev().map(|count| term(full(count), 0, 1)).collect();
    let last_goes = vec![go(8), vec![b'C'], go(7), vec![b'C']];
    draft(8, 1, [rows, terms, ask_all(), last_goes])
}

/// 64 minterms that all are needed, with pages around the one set.
fn many_alike() -> Draft {
    let asked = vec![page(0, 3), page(u64::MAX, 1), vec![b'C']];
    draft(6, 1, [all_wanted(6, 1), minterms(64), asked])
}

/// Tables of eight outputs by P, under drawn prices, and with the connection alone charged.
fn of_drawn_outputs(rng: &mut Rng, list: &mut Vec<Case>) {
    for turn in 0..60 {
        let table = random_table(rng, inputs(turn), 8);
        let own = if turn % 3 == 0 {
            [0, 0, 1 + turn as u8 % 50]
        } else {
            drawn_prices(rng)
        };
        let parts = [vec![prices(own)], rows(rng, &table), primes(), ask_all()];
        add(list, &draft(table.n as u8, 8, parts), LONGEST);
    }
}

/// One to three inputs in turn: with more the primes are soon too many.
fn inputs(turn: usize) -> usize {
    1 + turn % 3
}
