//! Long lists: pages of 255 sets that fit, and long runs of covers that do not.

use super::{Commands, LimitTable};
use crate::generate::draft::page;
use crate::generate::purpose::add;
use crate::generate::Case;
use crate::reference::{fits_part, LONGEST};

pub fn of_many(list: &mut Vec<Case>) {
    for limited in [
        all_fit(),
        half_fit(false),
        half_fit(true),
        scattered(3),
        scattered(4),
    ] {
        for room in [LONGEST, 2_043, 2_042, 0] {
            add(list, &limited.job(asked(&limited)), room);
        }
    }
}

/// From 0 on, around the first and last cover that fit, and the longest pages.
fn asked(limited: &LimitTable) -> Commands {
    let covers = limited.covers();
    let mut fitting = covers.clone();
    fitting.retain(|&set| fits_part(&limited.candidates, set));
    let (first, last) = (fitting[0], fitting[fitting.len() - 1]);
    let middle = fitting[fitting.len() / 2];
    vec![
        page(0, 255),
        page(first, 254),
        page(first.wrapping_add(1), 255),
        page(middle, 255),
        page(middle + 1, 1),
        page(last, 255),
        page(last, 0),
        page(last + 1, 255),
        page(last + 1, 0),
        page(covers[covers.len() - 1], 1),
        b"C".to_vec(),
    ]
}

/// Eight cells of two outputs, each held by two candidates.
fn doubled() -> LimitTable {
    let mut limited = LimitTable::new(3);
    for i in 0..8 {
        limited.one_of(1 << (i % 2), &[0, 0]);
    }
    limited
}

fn all_fit() -> LimitTable {
    let mut limited = doubled();
    limited.needed(4, 4);
    limited
}

/// 512 covers: the lower half does not fit, or every second one where the numbers are turned.
fn half_fit(turned: bool) -> LimitTable {
    let mut limited = doubled();
    limited.pieces(8, 4, 9);
    if turned {
        limited.candidates.rotate_left(16);
    }
    limited
}

/// 512 covers of nine choices, where at most so many may have the third output beside four.
fn scattered(others: usize) -> LimitTable {
    let mut limited = LimitTable::new(3);
    (0..others).for_each(|_| limited.needed(4, 4));
    for i in 0..9 {
        let further = if i % 3 == 0 { [4, 0] } else { [0, 4] };
        limited.one_of(1 << (i % 2), &further);
    }
    limited
}
