//! Jobs with blocks among their candidates: of no vertex and of all, equal ones, at other prices, with
//! candidates that come and go, over eight inputs, and drawn ones.

use super::{ask, block, by, f, Commands};
use crate::generate::bytes::full;
use crate::generate::draft::{
    block as by_eight, come, draft, go, page, prices, ready, row, term, Draft,
};
use crate::generate::purpose::{add, all_wanted};
use crate::generate::ready::{any_block, mixed};
use crate::generate::tables::{pairs, random_table, rows, table_of_terms, terms_for};
use crate::generate::{drawn_prices, Case};
use crate::reference::{Candidate, Table, LONGEST};
use crate::rng::Rng;
use crate::selftest::{ask_all, example_rows, TERMS};

pub fn of_jobs(rng: &mut Rng, list: &mut Vec<Case>) {
    of_small_tables(list);
    of_prices(list);
    of_going(list);
    of_unheld(list);
    of_eight_inputs(list);
    of_no_off_cell(rng, list);
    of_drawn(rng, list);
}

/// Blocks of no vertex, of all and of free ones alone, beside terms; equal ones; weights 0 and 850.
fn small_tables() -> Vec<Draft> {
    let line = |list: Commands| draft(1, 1, [all_wanted(1, 1), list, ask()]);
    let one_free = |list: Commands| {
        let rows = vec![row(0, 1, 0), row(1, 2, 1), row(2, 0, 3), row(3, 3, 0)];
        draft(2, 2, [rows, list, ask()])
    };
    vec![
        line(vec![f(1, &[], 0), f(1, &[0, 1], 850)]),
        line(vec![f(1, &[], 850), term(0, 0, 1)]),
        line(vec![f(1, &[0, 1], 0), term(0, 0, 1)]),
        line(vec![term(0, 0, 1), f(1, &[0, 1], 0)]),
        line(vec![f(1, &[0], 2), f(1, &[1], 3), f(1, &[0, 1], 5)]),
        line(vec![f(1, &[0, 1], 5), f(1, &[1], 3), f(1, &[0], 2)]),
        line(vec![f(1, &[0, 1], 9); 3]),
        line(vec![f(1, &[0, 1], 9), f(1, &[0, 1], 8), f(1, &[0, 1], 8)]),
        line(vec![f(1, &[0], 850), f(1, &[1], 850), f(1, &[0], 849)]),
        line(vec![f(1, &[0], 256), f(1, &[0], 255), term(1, 1, 1)]),
        // (0, 0), (1, 1), (3, 0) and (3, 1) are wanted; block 2 holds free cells alone.
        one_free(vec![f(1, &[0, 3], 4), f(2, &[1, 3], 4), f(1, &[2, 1], 0)]),
        one_free(vec![f(3, &[2, 3], 6), f(1, &[0], 1), f(2, &[1], 1)]),
        one_free(vec![f(1, &[0, 2, 3], 3), term(1, 1, 2), f(3, &[3], 1)]),
        draft(2, 2, [vec![row(0, 0, 3)], vec![f(3, &[0], 7)], ask()]),
        draft(8, 8, [vec![], vec![f(255, &[], 7)], ask()]),
    ]
}

fn of_small_tables(list: &mut Vec<Case>) {
    for job in small_tables() {
        add(list, &job, LONGEST);
    }
    // Not every cell is held: 12 at each query, and 14 behind it.
    for query in ask() {
        let half = vec![f(1, &[1], 1), query];
        for room in [0, 64] {
            let job = draft(1, 1, [all_wanted(1, 1), half.clone()]);
            add(list, &job, room);
        }
    }
}

/// The example's terms with blocks, whose weights decide against what W makes of the terms.
fn beside_terms(weights: [u16; 2]) -> Draft {
    let mut list: Commands = TERMS.iter().map(|t| term(t[0], t[1], t[2])).collect();
    list.insert(0, f(1, &[1, 2], weights[0]));
    list.insert(4, f(2, &[2, 3], weights[1]));
    draft(2, 2, [example_rows(), list, ask_all()])
}

/// The highest cost: 64 blocks of one vertex each, all of which are needed.
fn dearest_blocks() -> Draft {
    let list = (0..64).map(|v| f(1, &[v], 850)).collect();
    draft(6, 1, [all_wanted(6, 1), list, ask_all()])
}

fn of_prices(list: &mut Vec<Case>) {
    let lists = [
        [1, 1, 0],
        [0, 0, 0],
        [50, 0, 0],
        [0, 50, 0],
        [0, 0, 50],
        [50, 50, 50],
        [2, 1, 3],
    ];
    let weights = [[0, 0], [1, 2], [2, 2], [50, 50], [51, 99], [300, 850]];
    let mut jobs: Vec<Draft> = weights.into_iter().map(beside_terms).collect();
    jobs.extend(small_tables());
    jobs.push(dearest_blocks());
    for own in lists {
        for mut job in jobs.clone() {
            job.commands.insert(1, prices(own));
            add(list, &job, LONGEST);
        }
    }
    jobs.iter().for_each(|job| add(list, job, LONGEST));
}

/// Each of these goes, first, last and between, before the queries and behind: the others move down
/// with what they hold and their weights.
fn of_going(list: &mut Vec<Case>) {
    let rows = || -> Commands { (0..8).map(|v| row(v, 3, 0)).collect() };
    let standing = || {
        vec![
            f(1, &[0, 1, 2, 3], 3),
            term(4, 4, 1),
            f(2, &[0, 2, 4, 6], 5),
            come(1, 1, 2),
            f(3, &[1, 6, 7], 850),
            f(1, &[0, 3, 4, 5, 6, 7], 256),
            f(2, &[0, 1, 2, 3, 4, 5, 6, 7], 7),
        ]
    };
    for first in 0..7 {
        for second in 0..6 {
            let two = [vec![go(first)], vec![go(second)]].concat();
            let job = draft(3, 2, [rows(), standing(), two.clone(), ask_all()]);
            add(list, &job, LONGEST);
            let parts = [rows(), standing(), ask_all(), two, ask_all()];
            add(list, &draft(3, 2, parts), LONGEST);
        }
        // Another comes in behind the others: by F while that may stand, by A at any time.
        for again in [f(1, &[0, 1, 6, 7], 2), term(2, 2, 1), come(0, 0, 2)] {
            let changes = vec![go(first), again];
            let job = draft(3, 2, [rows(), standing(), changes, ask_all()]);
            add(list, &job, LONGEST);
        }
        let changes = vec![page(0, 2), go(first), come(0, 0, 3), b"C".to_vec(), go(6)];
        let job = draft(3, 2, [rows(), standing(), changes, ask_all()]);
        add(list, &job, LONGEST);
    }
    // All go, and one more.
    for count in [6, 7, 8] {
        let free = (0..8).map(|v| row(v, 0, 3)).collect();
        let parts = [free, standing(), ask_all(), vec![go(0); count], ask_all()];
        add(list, &draft(3, 2, parts), LONGEST);
    }
}

/// A wanted cell that a block has at another output or vertex alone.
fn of_unheld(list: &mut Vec<Case>) {
    for (v, j) in [(0, 0), (0, 1), (2, 1), (3, 0)] {
        let rows: Commands = (0..4)
            .map(|u| match u == v {
                true => row(u, 1 << j, 3 & !(1 << j)),
                false => row(u, 0, 3),
            })
            .collect();
        let at: Vec<usize> = vec![v.into()];
        let others: Vec<usize> = (0..4).filter(|&u| u != usize::from(v)).collect();
        for blocks in [
            vec![f(3 & !(1 << j), &[0, 1, 2, 3], 1)],
            vec![f(3, &others, 1)],
            vec![f(3 & !(1 << j), &at, 1), f(1 << j, &others, 1)],
            vec![f(1 << j, &at, 1)],
            vec![f(3, &others, 1), f(1 << j, &at, 1)],
        ] {
            for query in ask() {
                let asked = [blocks.clone(), vec![query]].concat();
                add(list, &draft(2, 2, [rows.clone(), asked]), 64);
            }
        }
    }
}

/// Vertex 255 and those at the borders of bytes, over eight inputs and eight outputs.
fn of_eight_inputs(list: &mut Vec<Case>) {
    let places = [0, 1, 7, 8, 63, 64, 127, 128, 191, 192, 247, 248, 254, 255];
    let rows = || -> Commands { places.map(|v| row(v as u8, 0x81, 0x7e)).to_vec() };
    for v in places {
        let others: Vec<usize> = places.into_iter().filter(|&u| u != v).collect();
        let low: Vec<usize> = places.into_iter().filter(|&u| u <= v).collect();
        let list_of = vec![
            f(0xff, &[v], 2),
            f(0x81, &others, 700),
            f(0x01, &places, 300),
            f(0x80, &low, 1),
            f(0x80, &places, 400),
            term(255, v as u8, 0x81),
        ];
        add(list, &draft(8, 8, [rows(), list_of, ask()]), LONGEST);
    }
    let all: Vec<usize> = (0..256).collect();
    for m in [1, 8] {
        let every = f(full(m), &all, 850);
        let halves = [f(full(m), &all[..128], 425), f(full(m), &all[128..], 424)];
        let blocks = [vec![every], halves.to_vec()].concat();
        let job = draft(8, m as u8, [all_wanted(8, m), blocks, ask()]);
        add(list, &job, LONGEST);
    }
}

/// No cell of eight inputs is off: whatever a block is read as, it may stand.
fn of_no_off_cell(rng: &mut Rng, list: &mut Vec<Case>) {
    for turn in 0..12 {
        let mut table = Table::new(8, 1 + turn % 3);
        let all = full(table.m);
        table.dc = [all; 256];
        let places: Vec<usize> = (0..6).map(|_| rng.below(256)).collect();
        for &v in &places {
            table.on[v] = 1 << rng.below(table.m);
            table.dc[v] = all & !table.on[v];
        }
        let eights = (0..32).map(|i| 8 * i);
        let rows = eights.map(|v| by_eight(v as u8, pairs(&table, v)));
        let mut blocks: Commands = places.iter().map(|&v| f(all, &[v], 3)).collect();
        let drawn = (0..5).map(|_| any_block(rng, &table));
        blocks.extend(drawn.map(|b| ready(&b)));
        let parts = [rows.collect(), blocks, ask()];
        add(list, &draft(8, table.m as u8, parts), LONGEST);
    }
}

/// Drawn tables with terms and blocks, and with blocks alone, at drawn prices.
fn of_drawn(rng: &mut Rng, list: &mut Vec<Case>) {
    for turn in 0..240 {
        let (n, m) = (rng.between(1, 4), rng.between(1, 4));
        let (table, terms) = if turn % 2 == 0 {
            table_of_terms(rng, n, m)
        } else {
            let table = random_table(rng, n, m);
            let terms = terms_for(rng, &table, 9);
            (table, terms)
        };
        let mut candidates = mixed(rng, &table, &terms);
        if turn % 3 == 0 {
            let whole: Vec<usize> = (0..table.vertices()).collect();
            candidates.retain(|c| c.block().is_some());
            candidates.push(Candidate::Block(any_block(rng, &table)));
            for j in 0..m {
                let may = |v: &usize| (table.on[*v] | table.dc[*v]) >> j & 1 == 1;
                let all: Vec<usize> = whole.iter().copied().filter(may).collect();
                candidates.push(Candidate::Block(block(1 << j, &all, 1 + turn as u16)));
            }
        }
        let settings = vec![prices(drawn_prices(rng)); turn % 2];
        let parts = [settings, rows(rng, &table), by(&candidates), ask()];
        add(list, &draft(n as u8, m as u8, parts), LONGEST);
    }
}
