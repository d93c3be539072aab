//! Pages of a list in which covers do not fit: from each start, with several counts; runs of covers that
//! do not fit, with one that does right behind them; 20 from each start.

use super::limits::by_both_limits;
use super::{others, Commands, LimitTable};
use crate::generate::draft::{page, ranged_page};
use crate::generate::purpose::{add, add_bytes};
use crate::generate::Case;
use crate::reference::LONGEST;

pub fn of_pages(list: &mut Vec<Case>) {
    of_starts(list);
    of_runs(list);
    of_none(list);
    of_orders(list);
}

/// Of 16 covers 11 fit: at most two of four have the first output, too, beside five others.
fn some_fit() -> LimitTable {
    let mut limited = LimitTable::new(3);
    (0..5).for_each(|_| limited.needed(1, 1));
    limited.one_of(2, &[1, 0]);
    limited.one_of(2, &[0, 1]);
    limited.one_of(4, &[1, 0]);
    limited.one_of(4, &[0, 1]);
    limited
}

/// Of 16 covers 5 fit: each time three pieces stand for one block.
fn few_fit() -> LimitTable {
    let mut limited = LimitTable::new(1);
    (0..4).for_each(|i| limited.pieces(3, 1, 10 * i));
    limited
}

/// Each output is full, so that one cover of many fits.
fn one_fits() -> LimitTable {
    let mut limited = LimitTable::new(2);
    (0..6).for_each(|_| limited.needed(3, 3));
    limited.pieces(2, 1, 1);
    limited.pieces(2, 2, 850);
    limited
}

/// Of eight covers four fit: beside 28 members one of three outputs at most may take two.
fn by_members() -> LimitTable {
    let mut limited = LimitTable::new(8);
    limited.spread(28);
    for outputs in [0x03, 0x24, 0x90] {
        limited.two_or_one(outputs);
    }
    limited
}

/// Ones of which the first, the last or one in the middle fits alone.
fn turned(limited: &LimitTable) -> Vec<LimitTable> {
    let count = limited.candidates.len();
    let turns = [0, 1, 4, count / 2, count - 2];
    let rotated = turns.map(|by| {
        let mut limited = limited.clone();
        limited.candidates.rotate_left(by);
        limited
    });
    let mut list = rotated.to_vec();
    let mut reversed = limited.clone();
    reversed.candidates.reverse();
    list.push(reversed);
    list
}

/// At each cover, one below and one above it.
fn starts(limited: &LimitTable) -> Vec<u64> {
    let around = |&set: &u64| [set.wrapping_sub(1), set, set.wrapping_add(1)];
    let mut list: Vec<u64> = limited.covers().iter().flat_map(around).collect();
    list.extend([0, 1, 1 << 32, u64::MAX]);
    list.sort_unstable();
    list.dedup();
    list
}

/// Pages of several counts from each of these starts.
fn counts(starts: &[u64]) -> Commands {
    let from = |&start: &u64| [0, 1, 2, 3, 255].map(|count| page(start, count));
    starts.iter().flat_map(from).collect()
}

/// The pages from each start, some starts in a job.
fn add_starts(list: &mut Vec<Case>, limited: &LimitTable) {
    for starts in starts(limited).chunks(6) {
        add(list, &limited.job(counts(starts)), LONGEST);
    }
}

fn of_starts(list: &mut Vec<Case>) {
    let by_limits = [by_members(), by_both_limits(27)];
    for first in [some_fit(), few_fit(), one_fits()].iter().chain(&by_limits) {
        for limited in turned(first) {
            add_starts(list, &limited);
            let mixed = [
                vec![page(0, 1)],
                others(),
                vec![page(0, 2), ranged_page(1, 1)],
            ];
            add(list, &limited.job(mixed.concat()), LONGEST);
        }
    }
}

/// Pieces with the low numbers, and right above all of them the block: 2^8 - 1 does not fit and 2^8
/// does. Beside it ones that are always needed, below and above.
fn of_runs(list: &mut Vec<Case>) {
    for pieces in [7, 8, 9, 12] {
        for below in [0, 1, 3] {
            for above in [0, 1, 3] {
                let mut limited = LimitTable::new(2);
                (0..below).for_each(|_| limited.needed(2, 2));
                limited.pieces(pieces, 1, 5);
                (0..above).for_each(|_| limited.needed(2, 2));
                add_starts(list, &limited);
            }
        }
    }
    // A run of several that do not fit, then some that do, and again.
    for order in [
        [8, 2, 2],
        [2, 8, 2],
        [2, 2, 8],
        [8, 8, 2],
        [8, 2, 8],
        [2, 8, 8],
    ] {
        let mut limited = LimitTable::new(3);
        for (i, pieces) in order.into_iter().enumerate() {
            limited.pieces(pieces, 1 << i, 5);
        }
        for limited in turned(&limited) {
            let asked = starts(&limited)
                .iter()
                .map(|&start| page(start, 1))
                .collect();
            add(list, &limited.job(asked), LONGEST);
            let asked = starts(&limited)
                .iter()
                .map(|&start| page(start, 0))
                .collect();
            add(list, &limited.job(asked), LONGEST);
            add(list, &limited.job(vec![page(0, 255), page(0, 2)]), LONGEST);
        }
    }
}

/// Tables of which no cover fits: one cover by either limit, and several.
fn none_fits() -> Vec<LimitTable> {
    let mut members = LimitTable::new(8);
    members.spread(33);
    let mut output = LimitTable::new(2);
    (0..8).for_each(|_| output.needed(2, 2));
    let mut several = LimitTable::new(2);
    (0..7).for_each(|_| several.needed(1, 1));
    several.one_of(2, &[1, 1, 1]);
    several.pieces(2, 1, 0);
    let mut last = LimitTable::new(8);
    last.spread(64);
    vec![members, output, several, last]
}

/// 20 whatever start, count and room are.
fn of_none(list: &mut Vec<Case>) {
    for limited in none_fits() {
        let covers = limited.covers();
        let middle = covers[covers.len() / 2];
        let last = covers[covers.len() - 1];
        for start in [0, 1, middle, last, last.wrapping_add(1), u64::MAX] {
            for count in [0, 1, 255] {
                for room in [0, 2, 3, 11, 64] {
                    add(list, &limited.job(vec![page(start, count)]), room);
                }
                let behind = [others(), vec![page(start, count)], others()].concat();
                add(list, &limited.job(behind), LONGEST);
            }
        }
    }
}

/// 5 before 12, 12 before 20, 20 before 14, and 14 where one fits.
fn of_orders(list: &mut Vec<Case>) {
    let mut fits = some_fit();
    fits.candidates.rotate_left(2);
    for mut limited in [none_fits(), vec![fits]].concat() {
        let whole = limited.job(vec![page(0, 9)]).job();
        for cut in 2..=11 {
            add_bytes(list, whole[..whole.len() - cut].to_vec(), 64);
        }
        for room in (0..12).chain([74, 75, 76]) {
            add_bytes(list, whole.clone(), room);
        }
        limited.vertex(1, 0);
        let unheld = limited.job(vec![page(0, 9)]).job();
        for room in [0, 2, 3, 64] {
            add_bytes(list, unheld.clone(), room);
        }
        add_bytes(list, unheld[..unheld.len() - 2].to_vec(), 64);
    }
}
