//! Each number and each pair of ends that G takes or refuses.

use super::{ask, g, one_of, Commands};
use crate::generate::draft::{draft, go, row, term};
use crate::generate::purpose::{add, minterms};
use crate::generate::Case;
use crate::reference::LONGEST;

pub fn of_limits(list: &mut Vec<Case>) {
    of_numbers(list);
    of_ends(list);
    of_two_numbers(list);
    of_no_candidate(list);
}

/// Every number that stands and those next to it, over few candidates and over 64.
fn of_numbers(list: &mut Vec<Case>) {
    for count in [1, 2, 3, 63, 64] {
        for number in [0, 1, 2, 3, 4, 62, 63, 64, 65, 127, 128, 129, 254, 255] {
            let one = vec![g(number, 0, 3)];
            add(list, &one_of(count, [one, ask()].concat()), LONGEST);
            // One has gone, so that the last number stands no more.
            let gone = vec![go(0), g(number, 2, 3)];
            add(list, &one_of(count, [gone, ask()].concat()), LONGEST);
        }
    }
}

/// Ends at their borders, against another candidate at several weights: the first is listed where its
/// low end is not above them, the second where they are not above its high end.
fn of_ends(list: &mut Vec<Case>) {
    let ends = [
        0, 1, 2, 3, 255, 256, 257, 512, 768, 849, 850, 851, 852, 1_024, 0x5203, 0x8000, 0xffff,
    ];
    for low in ends {
        for high in ends {
            let levels: &[u16] = match low <= high && high <= 850 {
                true => &[0, 1, 2, 255, 256, 300, 849, 850],
                false => &[1],
            };
            for &level in levels {
                let both = vec![g(1, level, level), g(0, low, high)];
                add(list, &one_of(2, [both, ask()].concat()), 64);
            }
        }
    }
    // Each bit of the operands.
    for bit in 0..40 {
        let mut changed = g(1, 2, 300);
        changed[1 + bit / 8] ^= 1 << (bit % 8);
        for level in [1, 5, 256, 301, 850] {
            let both = vec![g(0, level, level), changed.clone()];
            add(list, &one_of(2, [both, ask()].concat()), 64);
        }
    }
}

/// 15 and 19 at once, and each of them behind what is good.
fn of_two_numbers(list: &mut Vec<Case>) {
    for count in [0, 1, 2, 64] {
        for number in [0, 1, 2, 64, 255] {
            for (low, high) in [(0, 851), (5, 4), (1, 0), (851, 850), (0xffff, 0xffff)] {
                let one = vec![g(number, low, high)];
                add(list, &one_of(count, [one, ask()].concat()), 64);
                let good = [vec![g(0, 1, 1); count.min(1)], vec![g(number, low, high)]];
                add(list, &one_of(count, good.concat()), 64);
            }
        }
    }
}

/// Nothing is wanted and nothing stands: V has the empty set, and no number is good.
fn of_no_candidate(list: &mut Vec<Case>) {
    let alone = |behind: Commands| draft(2, 1, [vec![row(0, 0, 1)], behind]);
    add(list, &alone(ask()), 64);
    for number in [0, 1, 255] {
        add(list, &alone(vec![g(number, 0, 0)]), 64);
        let gone = vec![term(3, 0, 1), go(0), g(number, 0, 0)];
        add(list, &alone(gone), 64);
        let free = [vec![term(3, 0, 1), g(0, 0, 9)], ask()].concat();
        add(list, &alone(free), 64);
    }
    // 12 comes at V as at L, whatever the ranges are, and before 14.
    for room in [0, 64] {
        let half = vec![row(0, 1, 0), row(1, 1, 0), term(1, 0, 1), g(0, 0, 0)];
        for query in ask() {
            let job = draft(1, 1, [half.clone(), vec![query]]);
            add(list, &job, room);
        }
        let many = [minterms(63), vec![g(62, 1, 2)], ask()].concat();
        let rows: Commands = (0..64).map(|v| row(v, 1, 0)).collect();
        add(list, &draft(6, 1, [rows, many]), room);
    }
}
