//! Lists that go by the ranges: over the paper's example, with ties, equal candidates, blocks, at other
//! prices, from every start and with every small count, and over drawn tables.

use super::{ask, g, one_of, Commands};
use crate::generate::draft::{
    come, draft, page, prices, put, range, ranged_page, ready, row, term, Draft,
};
use crate::generate::purpose::{add, all_wanted, primes};
use crate::generate::ranges::drawn_range;
use crate::generate::ready::mixed;
use crate::generate::tables::{random_table, rows, table_of_terms, terms_for};
use crate::generate::{drawn_prices, Case};
use crate::reference::{of_terms, Block, Prices, LONGEST};
use crate::rng::Rng;
use crate::selftest::{example_rows, TERMS};

/// Ends around the costs of the example's terms, which are 1 and 3, and of its sets.
const ENDS: [(u16, u16); 14] = [
    (0, 0),
    (0, 1),
    (0, 2),
    (0, 3),
    (1, 1),
    (1, 3),
    (2, 2),
    (2, 5),
    (3, 3),
    (4, 4),
    (5, 5),
    (6, 9),
    (0, 850),
    (850, 850),
];

pub fn of_jobs(rng: &mut Rng, list: &mut Vec<Case>) {
    of_the_example(list);
    of_ties(list);
    of_starts(list);
    of_blocks(list);
    of_prices(list);
    of_shared_members(list);
    of_drawn(rng, list);
}

fn example(behind: Commands) -> Draft {
    let terms = TERMS.iter().map(|t| term(t[0], t[1], t[2])).collect();
    draft(2, 2, [example_rows(), terms, behind])
}

/// Each term with each of these ends, every two of them with some, and all of them alike.
fn of_the_example(list: &mut Vec<Case>) {
    add(list, &example(ask()), LONGEST);
    for number in 0..6 {
        for (low, high) in ENDS {
            let one = [vec![g(number, low, high)], ask()].concat();
            add(list, &example(one.clone()), LONGEST);
            let by_primes = [primes(), one].concat();
            add(list, &draft(2, 2, [example_rows(), by_primes]), LONGEST);
        }
        for other in 0..6 {
            for (low, high) in [(0, 1), (1, 3), (0, 850), (4, 4)] {
                let two = vec![g(number, low, high), g(other, 2, 3)];
                add(list, &example([two, ask()].concat()), LONGEST);
            }
        }
    }
    for (low, high) in ENDS {
        let all: Commands = (0..6).map(|i| g(i, low, high)).collect();
        add(list, &example([all, ask()].concat()), LONGEST);
        let upwards: Commands = (0..6).map(|i| g(i, low / 2, high.max(i.into()))).collect();
        add(list, &example([upwards, ask()].concat()), LONGEST);
    }
}

/// Ranges that touch, overlap by one and miss by one, over equal candidates.
fn of_ties(list: &mut Vec<Case>) {
    for ends in [
        [(1, 2), (2, 3), (3, 4)],
        [(1, 2), (3, 4), (2, 2)],
        [(3, 4), (1, 2), (2, 3)],
        [(5, 5), (5, 5), (5, 5)],
        [(5, 5), (4, 6), (6, 6)],
        [(0, 0), (0, 0), (0, 850)],
        [(0, 850), (0, 850), (0, 850)],
        [(850, 850), (850, 850), (849, 849)],
        [(0, 255), (256, 256), (255, 257)],
        [(2, 9), (3, 8), (4, 7)],
        [(1, 1), (2, 2), (0, 3)],
    ] {
        let set = |i: usize| g(i as u8, ends[i].0, ends[i].1);
        let three: Commands = (0..3).map(set).collect();
        add(list, &one_of(3, [three.clone(), ask()].concat()), 128);
        let turned: Commands = three.into_iter().rev().collect();
        add(list, &one_of(3, [turned, ask()].concat()), 128);
        // The third keeps its weight of 1.
        add(
            list,
            &one_of(3, [vec![set(0), set(1)], ask()].concat()),
            128,
        );
    }
}

/// Every start and small count over lists with gaps, of which L has more sets.
fn of_starts(list: &mut Vec<Case>) {
    let ranges = vec![g(0, 1, 3), g(1, 5, 9), g(2, 0, 4), g(3, 4, 4), g(4, 3, 3)];
    for start in 0..33 {
        let counts = [0, 1, 2, 3, 255];
        let asked: Commands = counts.map(|count| ranged_page(start, count)).to_vec();
        add(list, &one_of(5, [ranges.clone(), asked].concat()), 128);
        let both = vec![ranged_page(start, 1), page(start, 1)];
        add(list, &one_of(5, [ranges.clone(), both].concat()), 128);
    }
    for start in [1 << 16, 1 << 32, 1 << 63, u64::MAX - 1, u64::MAX] {
        let asked = vec![ranged_page(start, 9), ranged_page(start, 0)];
        add(list, &one_of(5, [ranges.clone(), asked].concat()), 128);
    }
    // The covers are 11, 22, 26, 41, 52 and 56; 22 and 26 are not listed.
    let some = vec![g(0, 0, 3), g(2, 1, 2), g(5, 0, 4)];
    for start in 0..58 {
        for count in 0..5 {
            let asked = [some.clone(), vec![ranged_page(start, count)]].concat();
            add(list, &example(asked), 64);
        }
    }
}

fn f(vertices: &[usize], weight: u16) -> Vec<u8> {
    ready(&Block::new(1, vertices.iter().copied(), weight))
}

/// Two inputs; vertices 1 and 2 are wanted. A block has both, two terms or blocks one each.
fn of_blocks(list: &mut Vec<Case>) {
    let table = || vec![row(1, 1, 0), row(2, 1, 0)];
    for weight in [0, 5, 6, 7, 850] {
        let standing = vec![f(&[1, 2], weight), term(3, 1, 1), f(&[2], 3), f(&[1, 2], 6)];
        add(list, &draft(2, 1, [table(), standing.clone(), ask()]), 256);
        for number in 0..4 {
            for (low, high) in ENDS {
                let one = [vec![g(number, low, high)], ask()].concat();
                add(list, &draft(2, 1, [table(), standing.clone(), one]), 256);
            }
        }
    }
}

/// Without G a term has the weight of the job's prices for both ends.
fn of_prices(list: &mut Vec<Case>) {
    for own in [[0, 0, 0], [50, 50, 50], [2, 1, 3], [0, 7, 0], [1, 0, 9]] {
        for ranges in [
            vec![],
            vec![g(0, 0, 9)],
            vec![g(1, 3, 3), g(4, 0, 200)],
            vec![g(5, 850, 850), g(3, 5, 14)],
        ] {
            let mut job = example([ranges.clone(), ask()].concat());
            job.commands.insert(1, prices(own));
            add(list, &job, LONGEST);
            let by_primes = [vec![prices(own)], example_rows(), primes(), ranges, ask()];
            add(list, &draft(2, 2, by_primes), LONGEST);
        }
        // One comes behind G: its ends are its weight at these prices.
        let behind = [vec![g(0, 6, 60), come(2, 2, 1), g(1, 2, 70)], ask()].concat();
        let line = [
            all_wanted(2, 1),
            vec![term(2, 0, 1), term(2, 2, 1), term(0, 0, 1)],
        ];
        let parts = [vec![prices(own)], line.concat(), behind];
        add(list, &draft(2, 1, parts), LONGEST);
    }
}

/// Vertex 0 is held by one term alone, which is in every cover: whatever its range is, it decides
/// nothing. The others are held by one term of wide or narrow range, or by two.
fn of_shared_members(list: &mut Vec<Case>) {
    let rows: Commands = vec![row(0, 1, 0), row(1, 1, 0), row(3, 1, 0)];
    let terms = vec![term(3, 0, 1), term(1, 1, 1), term(3, 1, 1), term(3, 3, 1)];
    for shared in [(0, 0), (0, 850), (3, 9), (850, 850)] {
        for wide in [(5, 5), (6, 6), (7, 7), (5, 8), (7, 9)] {
            for narrow in [(2, 4), (3, 3), (4, 5)] {
                let ranges = vec![
                    g(0, shared.0, shared.1),
                    g(1, wide.0, wide.1),
                    g(2, narrow.0, narrow.1),
                    g(3, 3, 3),
                ];
                let parts = [rows.clone(), terms.clone(), ranges, ask()];
                add(list, &draft(2, 1, parts), 128);
            }
        }
    }
}

/// Drawn tables with terms, blocks or primes, a range for each candidate or for some, and pages of one
/// to four sets that go on.
fn of_drawn(rng: &mut Rng, list: &mut Vec<Case>) {
    for turn in 0..300 {
        let (n, m) = (rng.between(1, 4), rng.between(1, 3));
        let (table, terms) = if turn % 2 == 0 {
            table_of_terms(rng, n, m)
        } else {
            let table = random_table(rng, n, m);
            let terms = terms_for(rng, &table, 10);
            (table, terms)
        };
        let candidates = match turn % 3 {
            0 => mixed(rng, &table, &terms),
            _ => of_terms(&terms),
        };
        let own = drawn_prices(rng);
        let mut ranges = Vec::new();
        for (i, c) in candidates.iter().enumerate() {
            let weight = Prices::of(&own).cost_of(c) as u16;
            if turn % 4 > 0 || rng.chance(1, 2) {
                ranges.push(range(i as u8, drawn_range(rng, weight)));
            }
        }
        let by: Commands = candidates.iter().map(put).collect();
        let parts = [vec![prices(own)], rows(rng, &table), by, ranges, ask()];
        add(list, &draft(n as u8, m as u8, parts), LONGEST);
    }
}
