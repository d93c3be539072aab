//! Jobs for K9 with many candidates and covers, for some of which the reference has no list: what the
//! engine's pages, C and N answer is compared there.

use super::{add, Ordered};
use crate::generate::draft::{draft, page, Draft};
use crate::generate::drawn_plan;
use crate::generate::products::{job_with, Plan};
use crate::generate::purpose::{all_wanted, minterms};
use crate::generate::term;
use crate::reference::{of_terms, products, Products};
use crate::rng::Rng;

type Commands = Vec<Vec<u8>>;

pub fn of_many(rng: &mut Rng, list: &mut Vec<Ordered>) {
    of_alike(rng, list);
    of_factors(rng, list);
    for _ in 0..24 {
        let plan = drawn_plan(rng);
        of_plan(rng, list, &plan);
    }
}

/// 64 equal candidates, and 64 that all are needed.
fn of_alike(rng: &mut Rng, list: &mut Vec<Ordered>) {
    for terms in [vec![term(0, 0, 1); 64], minterms(64)] {
        let mut job = draft(6, 1, [all_wanted(6, 1), terms, asked(true)]);
        add(rng, list, &job);
        by_changes(rng, &mut job);
        add(rng, list, &job);
    }
}

/// 1,024 sets and fewer, more than N has and more than the reference lists; 64 candidates.
fn of_factors(rng: &mut Rng, list: &mut Vec<Ordered>) {
    for sizes in [
        &[2; 10][..],
        &[4; 5],
        &[32, 32],
        &[16, 48],
        &[5, 5, 41],
        &[2; 11],
        &[3; 7],
        &[2, 3, 5, 7, 11],
        &[4, 20, 32],
        &[13, 13, 16],
    ] {
        let mut plan = Plan::of_factors(2, sizes);
        if sizes.iter().sum::<usize>() < 64 {
            plan.everywhere();
        }
        plan.shuffle(rng);
        of_plan(rng, list, &plan);
    }
}

fn of_plan(rng: &mut Rng, list: &mut Vec<Ordered>, plan: &Plan) {
    let (table, terms) = plan.widened(rng);
    let mut candidates = of_terms(&terms);
    if rng.chance(1, 3) {
        // Two T commands are left.
        candidates[2..].copy_from_slice(&plan.with_blocks(rng, &terms)[2..]);
    }
    let answered = matches!(products(&table, &candidates), Products::All(_));
    let mut job = job_with(rng, &table, &candidates, asked(answered));
    if rng.chance(2, 3) {
        by_changes(rng, &mut job);
    }
    add(rng, list, &job);
}

fn asked(with_products: bool) -> Commands {
    let products = vec![b"N".to_vec(); usize::from(with_products)];
    [
        vec![page(0, 9), b"C".to_vec()],
        products,
        vec![page(1 << 20, 5)],
    ]
    .concat()
}

/// One T out of four becomes an A, but for the first two.
fn by_changes(rng: &mut Rng, draft: &mut Draft) {
    let terms = draft.commands.iter_mut().filter(|c| c[0] == b'T');
    for command in terms.skip(2) {
        if rng.chance(1, 4) {
            command[0] = b'A';
        }
    }
}
