//! Many candidates with ranges, and lists of V with more sets than a page has.

use super::{ask, g, one_of, Commands};
use crate::generate::draft::{come, draft, go, page, ranged_page, term, Draft};
use crate::generate::purpose::{add, all_wanted, minterms};
use crate::generate::Case;
use crate::reference::LONGEST;

pub fn of_many(list: &mut Vec<Case>) {
    of_full_candidates(list);
    of_many_sets(list);
    of_needed(list);
}

/// Pages around the sets of the highest candidates.
fn far_pages() -> Commands {
    let far = [0, 1 << 31, 1 << 32, 1 << 62, 1 << 63, u64::MAX];
    let mut list: Commands = far.map(|start| ranged_page(start, 2)).to_vec();
    list.extend([ranged_page(0, 255), page(1 << 63, 1), b"C".to_vec()]);
    list
}

/// 64 that are alike: each has a range of its own; the first, the last or one between goes, and
/// another comes.
fn of_full_candidates(list: &mut Vec<Case>) {
    for (step, width) in [(0, 0), (1, 30), (13, 0), (13, 20), (10, 850)] {
        let ends = |i: u8| (step * u16::from(i), (step * u16::from(i) + width).min(850));
        let ranges: Commands = (0..64)
            .map(|i| {
                let (low, high) = ends(i);
                g(63 - i, low, high)
            })
            .collect();
        let whole = [ranges.clone(), far_pages()].concat();
        add(list, &one_of(64, whole), LONGEST);
        for number in [0, 31, 32, 62, 63] {
            let changes = vec![go(number), come(0, 0, 1), g(63, 0, 5)];
            let asked = [ranges.clone(), changes, far_pages()].concat();
            add(list, &one_of(64, asked), LONGEST);
            let gone = [ranges.clone(), vec![go(number)], far_pages()].concat();
            add(list, &one_of(64, gone), LONGEST);
        }
    }
    for number in [0, 31, 32, 62, 63] {
        let one = [vec![g(number, 0, 0)], far_pages()].concat();
        add(list, &one_of(64, one), LONGEST);
        let other = [vec![g(number, 2, 850)], far_pages()].concat();
        add(list, &one_of(64, other), LONGEST);
    }
}

/// Each of eight vertices by two terms: 256 covers. Ranges list all of them, one in two for each
/// vertex that has a cheaper term, and so on.
fn doubled(ranges: Commands, asked: Commands) -> Draft {
    let twice: Commands = (0..16).map(|i| term(7, i / 2, 1)).collect();
    draft(3, 1, [all_wanted(3, 1), twice, ranges, asked])
}

fn of_many_sets(list: &mut Vec<Case>) {
    let last = 0xaaaa;
    let asked = || {
        vec![
            ranged_page(0, 255),
            ranged_page(0, 254),
            ranged_page(last, 255),
            ranged_page(last, 0),
            ranged_page(last + 1, 255),
            page(0, 1),
            ranged_page(0x5556, 100),
            b"C".to_vec(),
        ]
    };
    for room in [0, 2_042, 2_043, 2_044, 4_000, 4_078, LONGEST] {
        add(list, &doubled(vec![], asked()), room);
    }
    for dearer in 0..=8u8 {
        // The second term of so many vertices costs more than the first, whatever is chosen.
        let ranges: Commands = (0..dearer).map(|i| g(2 * i + 1, 5, 6)).collect();
        add(list, &doubled(ranges, asked()), LONGEST);
        let wide: Commands = (0..dearer).map(|i| g(2 * i, 2, 6)).collect();
        add(list, &doubled(wide.clone(), asked()), LONGEST);
        let touching: Commands = (0..dearer).map(|i| g(2 * i + 1, 6, 9)).collect();
        let both = [wide, touching].concat();
        add(list, &doubled(both, asked()), LONGEST);
    }
}

/// 64 that are all needed: one cover, whatever the ranges are; its cost stays C's.
fn of_needed(list: &mut Vec<Case>) {
    for high in [0, 1, 850] {
        let ranges: Commands = (0..64).map(|i| g(i, 0, high)).collect();
        let parts = [all_wanted(6, 1), minterms(64), ranges, ask()];
        add(list, &draft(6, 1, parts), LONGEST);
    }
}
