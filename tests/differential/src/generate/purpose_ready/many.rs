//! Many candidates with blocks among them: 64 and the 65th, and N's limit.

use super::{ask, f, Commands};
use crate::generate::draft::{come, draft, go, page, row, term, Draft};
use crate::generate::products::{job_with, Plan};
use crate::generate::purpose::{add, all_wanted, minterms};
use crate::generate::{counted, drawn_plan, Case};
use crate::reference::LONGEST;
use crate::rng::Rng;

pub fn of_many(rng: &mut Rng, list: &mut Vec<Case>) {
    of_full_candidates(list);
    of_needed(list);
    of_products(rng, list);
}

/// Pages around the sets of the highest candidates, and the cheapest.
fn far_pages() -> Commands {
    let far = [0, 1 << 62, 1 << 63, u64::MAX];
    let mut list: Commands = far.map(|start| page(start, 2)).to_vec();
    list.push(b"C".to_vec());
    list
}

/// Candidates that are alike in what they hold: by F, T and A in turns.
fn alike(i: usize) -> Vec<u8> {
    match i % 3 {
        0 => f(1, &[0, 1], 5),
        1 => term(0, 0, 1),
        _ => come(0, 0, 1),
    }
}

/// Over one input, both of whose vertices are wanted.
fn line(standing: Commands, behind: Commands) -> Draft {
    draft(1, 1, [all_wanted(1, 1), standing, behind])
}

/// Up to 66, by F alone and in turns, and what comes to 64.
fn of_full_candidates(list: &mut Vec<Case>) {
    let by_turns = |count: usize| -> Commands { (0..count).map(alike).collect() };
    for count in [63, 64, 65, 66] {
        add(list, &line(vec![alike(0); count], far_pages()), LONGEST);
        add(list, &line(by_turns(count), far_pages()), LONGEST);
    }
    for standing in [vec![alike(0); 64], vec![alike(1); 64], by_turns(64)] {
        for last in [
            vec![alike(0)],
            vec![alike(1)],
            vec![alike(2)],
            vec![f(1, &[], 0)],
            vec![go(63), alike(0)],
            vec![go(0), alike(0), alike(0)],
            vec![go(31), alike(1), alike(0)],
            vec![go(0), go(0), alike(0), alike(2), alike(0)],
            vec![page(0, 1), go(0), alike(2), alike(2)],
            vec![page(0, 1), go(0), alike(0)],
        ] {
            let behind = [last, far_pages()].concat();
            add(list, &line(standing.clone(), behind), LONGEST);
        }
    }
}

/// 64 that are all needed, by T and F in turns; one goes and comes by the other command.
fn of_needed(list: &mut Vec<Case>) {
    let by_turns = |v: usize| match v % 2 {
        0 => f(1, &[v], 850 - v as u16),
        _ => term(63, v as u8, 1),
    };
    let standing: Commands = (0..64).map(by_turns).collect();
    for v in [0, 1, 31, 32, 62, 63] {
        for again in [f(1, &[v], 1), come(63, v as u8, 1)] {
            let changes = vec![go(v as u8), again];
            let parts = [all_wanted(6, 1), standing.clone(), changes, far_pages()];
            add(list, &draft(6, 1, parts), LONGEST);
        }
    }
    let mut all = minterms(63);
    all.push(f(1, &[63], 850));
    add(
        list,
        &draft(6, 1, [all_wanted(6, 1), all, far_pages()]),
        LONGEST,
    );
}

/// 1,024 products and more where blocks hold the cells, over tables whose products are counted; a
/// block that holds every cell; and one that goes.
fn of_products(rng: &mut Rng, list: &mut Vec<Case>) {
    for (plan, _) in counted() {
        let (table, terms) = plan.widened(rng);
        let candidates = plan.with_blocks(rng, &terms);
        let asked = vec![b"N".to_vec()];
        add(list, &job_with(rng, &table, &candidates, asked), LONGEST);
    }
    for _ in 0..30 {
        let plan = drawn_plan(rng);
        let (table, terms) = plan.widened(rng);
        let candidates = plan.with_blocks(rng, &terms);
        let number = rng.below(candidates.len()) as u8;
        let asked = vec![go(number), b"N".to_vec()];
        add(list, &job_with(rng, &table, &candidates, asked), LONGEST);
    }
    for sizes in [&[2; 10][..], &[4; 5], &[32, 32], &[5, 5, 41], &[2; 11]] {
        let plan = Plan::of_factors(2, sizes);
        let (table, terms) = plan.made();
        let candidates = plan.with_blocks(rng, &terms);
        for room in [8_194, 8_195, 8_196, LONGEST] {
            let job = job_with(rng, &table, &candidates, vec![b"N".to_vec()]);
            add(list, &job, room);
        }
    }
    // Each of five vertices has two blocks, and one block has all of them.
    let first: Commands = (0..5).map(|i| f(1, &[i], 2)).collect();
    let second: Commands = (0..5).map(|i| f(1, &[i], 3)).collect();
    let every = vec![f(1, &[0, 1, 2, 3, 4], 9)];
    let rows: Commands = (0..5).map(|v| row(v, 1, 0)).collect();
    for lists in [
        [first.clone(), second.clone(), every.clone()],
        [every, second, first],
    ] {
        let job = draft(3, 1, [rows.clone(), lists.concat(), ask()]);
        add(list, &job, LONGEST);
    }
}
