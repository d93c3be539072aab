//! Tables with just about 1,024 products at the last cell and at an earlier one, before the keeping
//! and behind it.

use super::{amid_pages, multiply, Commands, LONGEST_ANSWER};
use crate::generate::products::{job_of, Plan};
use crate::generate::purpose::add;
use crate::generate::Case;
use crate::reference::{LONGEST, MOST_PRODUCTS};
use crate::rng::Rng;

/// Sizes of factors, whether one candidate more holds every cell, which is one product more, and
/// the products that remain at the last factor.
const COUNTS: [(&[usize], bool, usize); 21] = [
    (&[64], false, 64),
    (&[5, 51], false, 255),
    (&[16, 16], false, 256),
    (&[16, 16], true, 257),
    (&[3, 11, 31], false, 1_023),
    (&[2; 10], false, 1_024),
    (&[4; 5], false, 1_024),
    (&[32, 32], false, 1_024),
    (&[16, 8, 8], false, 1_024),
    (&[3, 11, 31], true, 1_024),
    (&[31, 3, 11], true, 1_024),
    (&[5, 5, 41], false, 1_025),
    (&[41, 5, 5], false, 1_025),
    (&[2; 10], true, 1_025),
    (&[8, 16, 8], true, 1_025),
    (&[5, 41, 5], true, 1_026),
    (&[2, 3, 3, 3, 19], false, 1_026),
    (&[2; 11], false, 2_048),
    (&[3; 7], false, 2_187),
    (&[16; 4], false, 65_536),
    (&[2; 32], false, 1 << 32),
];

/// Each plan with the products that remain at its last factor.
pub fn counted() -> Vec<(Plan, usize)> {
    let mut list = Vec::new();
    for (i, (sizes, everywhere, count)) in COUNTS.into_iter().enumerate() {
        let mut plan = Plan::of_factors([1, 3, 8][i % 3], sizes);
        if everywhere {
            plan.everywhere();
        }
        list.push((plan, count));
    }
    list
}

pub fn of_limits(rng: &mut Rng, list: &mut Vec<Case>) {
    for (plan, count) in counted() {
        of_rooms(rng, list, &plan, count);
        of_numbers(rng, list, &plan);
        of_further_cells(rng, list, &plan);
    }
    of_wide_cells(rng, list);
    of_all_candidates(rng, list);
    of_unheld_cells(rng, list);
}

/// N alone over buffers about as long as its answer; where it is refused with 17, also over none.
fn of_rooms(rng: &mut Rng, list: &mut Vec<Case>, plan: &Plan, count: usize) {
    let job = plan.job(rng, multiply());
    let need = 3 + 8 * count.min(MOST_PRODUCTS);
    for room in [0, 2, need - 1, need, need + 1] {
        add(list, &job, room);
    }
}

/// Other numbers for the candidates, so that the sets do not come in their order; larger cubes.
fn of_numbers(rng: &mut Rng, list: &mut Vec<Case>, plan: &Plan) {
    for _ in 0..2 {
        let mut other = plan.clone();
        other.shuffle(rng);
        add(list, &other.job(rng, multiply()), LONGEST);
        let (table, terms) = other.widened(rng);
        let job = job_of(rng, &table, &terms, multiply());
        add(list, &job, LONGEST_ANSWER + 1);
    }
}

/// Behind the factors come cells after which fewer remain, down to one, and cells that change
/// nothing, at which the joined products are more than those that remain.
fn of_further_cells(rng: &mut Rng, list: &mut Vec<Case>, plan: &Plan) {
    let factors = plan.factors().len();
    let last = factors - 1;
    let every: Vec<usize> = (0..factors).collect();
    for (killed, again) in [
        (&[0][..], &[][..]),
        (&[last], &[]),
        (&every, &[]),
        (&every[1..], &[0]),
        (&every[..last], &[]),
        (&[], &[0]),
        (&[], &[last]),
        (&[], &every),
    ] {
        let mut changed = plan.clone();
        killed.iter().for_each(|&number| changed.kill(number));
        again.iter().for_each(|&number| changed.again(number));
        // One that holds every cell holds the new ones, too.
        changed.everywhere_again();
        if rng.chance(1, 2) {
            changed.shuffle(rng);
        }
        // Pages where few remain at the end.
        let asked = if killed.len() > 1 {
            amid_pages()
        } else {
            multiply()
        };
        add(list, &changed.job(rng, asked), LONGEST);
    }
}

/// The factors stand at the neighbours of one vertex, whose cell all candidates hold: it comes last
/// or first. Up to 65,536 products are joined at it.
fn of_wide_cells(rng: &mut Rng, list: &mut Vec<Case>) {
    let sizes: [&[usize]; 8] = [
        &[2, 2, 2, 2, 2, 2, 4, 4],
        &[4, 4, 4, 4, 4],
        &[32, 32],
        &[8, 8, 16],
        &[5, 5, 41],
        &[2, 2, 2, 2, 4, 4, 5],
        &[64],
        &[8, 8, 8, 8, 8, 8, 8, 8],
    ];
    for wide in [255, 0] {
        for sizes in sizes {
            let mut plan = Plan::new(8, 1);
            for (i, &size) in sizes.iter().enumerate() {
                plan.factor((wide ^ (1 << i), 0), size);
            }
            plan.held.iter_mut().for_each(|held| held.push((wide, 0)));
            add(list, &plan.job(rng, multiply()), LONGEST);
            plan.shuffle(rng);
            add(list, &plan.job(rng, multiply()), LONGEST_ANSWER);
        }
    }
}

/// 64 candidates: ten pairs and 44 that are always needed, or that hold nothing wanted, or both.
fn of_all_candidates(rng: &mut Rng, list: &mut Vec<Case>) {
    for needed in [0, 1, 20, 43, 44] {
        let mut plan = Plan::of_factors(8, &[2; 10]);
        for i in 0..44 {
            let at = (16 + i / 8, i % 8);
            if i < needed {
                plan.factor(at, 1);
            } else {
                plan.idle(at);
            }
        }
        add(list, &plan.job(rng, multiply()), LONGEST);
        plan.shuffle(rng);
        let thrice: Commands = vec![vec![b'N']; 4];
        add(list, &plan.job(rng, thrice), LONGEST);
    }
    // Nothing is wanted, with up to 64 candidates that hold a free cell.
    for count in [0, 1, 2, 63, 64] {
        let mut plan = Plan::new(3, 8);
        (0..count).for_each(|i| plan.idle((i / 8, i % 8)));
        for room in [10, 11, 12] {
            add(list, &plan.job(rng, multiply()), room);
        }
    }
}

/// 12 comes before 17, whether the cell that none holds is the first, the last or between.
fn of_unheld_cells(rng: &mut Rng, list: &mut Vec<Case>) {
    for sizes in [&[1][..], &[2; 10], &[5, 5, 41], &[2; 11], &[16; 4]] {
        for m in [1, 8] {
            let plan = Plan::of_factors(m, sizes);
            let mut shifted = Plan::new(8, m);
            for factor in plan.factors() {
                shifted.factor((factor.at.0 + 1, factor.at.1), factor.size);
            }
            for at in [(0, 0), (0, m as u8 - 1), (100, 0), (255, m as u8 - 1)] {
                let mut unheld = shifted.clone();
                unheld.unheld.push(at);
                for room in [0, LONGEST] {
                    add(list, &unheld.job(rng, multiply()), room);
                }
            }
        }
    }
}
