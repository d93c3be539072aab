//! Ranges of candidates that come and go, and ranges that are replaced.

use super::{ask, g, one_of, Commands};
use crate::generate::draft::{come, draft, go, page, prices, ranged_page, row, term, Draft};
use crate::generate::purpose::{add, all_wanted};
use crate::generate::Case;
use crate::reference::LONGEST;
use crate::rng::Rng;

pub fn of_changes(rng: &mut Rng, list: &mut Vec<Case>) {
    of_going(list);
    of_coming(list);
    of_replaced(list);
    of_turns(rng, list);
}

/// One input: vertex 0 and 1 by a term each, both by two others; each with a range of its own.
fn four(behind: Commands) -> Draft {
    let terms = vec![term(1, 0, 1), term(0, 0, 1), term(1, 1, 1), term(0, 0, 1)];
    let ranges = vec![g(0, 2, 3), g(1, 5, 8), g(2, 3, 4), g(3, 6, 6)];
    draft(1, 1, [all_wanted(1, 1), terms, ranges, behind])
}

/// Each one goes, two go, and V is asked before, between and behind; the others keep their ranges.
fn of_going(list: &mut Vec<Case>) {
    for first in 0..4 {
        let one = [vec![go(first)], ask()].concat();
        add(list, &four(one.clone()), 256);
        add(list, &four([ask(), one.clone()].concat()), 512);
        for second in 0..3 {
            let two = [one.clone(), vec![go(second)], ask()].concat();
            add(list, &four(two), 512);
            let ranged = vec![go(first), g(second, 1, 7), ranged_page(0, 9)];
            add(list, &four(ranged.clone()), 256);
            let again = [ranged, vec![go(second)], ask()].concat();
            add(list, &four(again), 256);
        }
    }
    // Equal candidates with different ranges: which of them goes decides.
    for count in [3, 4] {
        let all: Commands = (0..count).map(|i| g(i, 3 * u16::from(i), 10)).collect();
        for number in 0..count {
            let asked = [all.clone(), vec![go(number)], ask()].concat();
            add(list, &one_of(count.into(), asked), 256);
        }
        for twice in 0..count - 1 {
            let asked = [all.clone(), vec![go(twice), go(twice)], ask()].concat();
            add(list, &one_of(count.into(), asked), 256);
        }
    }
}

/// A new candidate has its own weight for both ends, also where one with a range stood at its number,
/// and the others keep theirs.
fn of_coming(list: &mut Vec<Case>) {
    for number in 0..4 {
        for new in [come(0, 0, 1), come(1, 0, 1), come(1, 1, 1)] {
            add(list, &four([vec![new.clone()], ask()].concat()), 512);
            let turned = [vec![go(number), new.clone()], ask()].concat();
            add(list, &four(turned.clone()), 512);
            add(list, &four([ask(), turned].concat()), 512);
            let ranged = vec![go(number), new.clone(), g(3, 0, 2), ranged_page(0, 9)];
            add(list, &four(ranged), 512);
            let back = vec![new, go(4), ranged_page(0, 9), go(number), ranged_page(0, 9)];
            add(list, &four(back), 512);
        }
    }
    // All have gone, and as many come again.
    let all_new: Commands = [vec![go(0); 4], vec![come(0, 0, 1); 4], ask()].concat();
    add(list, &four(all_new), 512);
    // At prices: a term by A costs 7 and two literals cost 5 each.
    let parts = [
        vec![prices([7, 5, 0])],
        all_wanted(2, 1),
        vec![term(0, 0, 1), g(0, 8, 20)],
        vec![ranged_page(0, 9), come(0, 0, 1), ranged_page(0, 9)],
        vec![go(0), come(3, 0, 1), ranged_page(0, 9), g(1, 0, 0)],
        ask(),
    ];
    add(list, &draft(2, 1, parts), 256);
}

/// A later G replaces the earlier, whether it is narrower, wider or elsewhere.
fn of_replaced(list: &mut Vec<Case>) {
    let ends = [(0, 850), (3, 5), (5, 5), (7, 9), (0, 0), (1, 4)];
    for first in ends {
        for second in ends {
            for level in [4, 6] {
                let other = g(1, level, level);
                let twice = vec![g(0, first.0, first.1), g(0, second.0, second.1)];
                let asked = [vec![other.clone()], twice.clone(), ask()].concat();
                add(list, &one_of(2, asked), 128);
                let between = vec![
                    other,
                    twice[0].clone(),
                    ranged_page(0, 9),
                    twice[1].clone(),
                    ranged_page(0, 9),
                    ranged_page(0, 9),
                ];
                add(list, &one_of(2, between), 128);
            }
        }
    }
    // A G that is refused leaves the range: the job stops there, but what was answered stays.
    for bad in [g(0, 9, 8), g(0, 0, 851), g(2, 0, 0)] {
        let asked = vec![g(0, 2, 3), ranged_page(0, 9), bad, ranged_page(0, 9)];
        add(list, &one_of(2, asked), 128);
    }
}

/// Drawn turns of A, D, G, V, L and C over three candidates or more.
fn of_turns(rng: &mut Rng, list: &mut Vec<Case>) {
    let rows: Commands = (0..4).map(|v| row(v, 1, 0)).collect();
    let any = [[0, 0], [1, 0], [1, 1], [2, 0], [2, 2], [3, 1]];
    for _ in 0..200 {
        let mut standing: usize = 3;
        let mut behind = Commands::new();
        for _ in 0..rng.between(6, 20) {
            let number = rng.below(standing) as u8;
            behind.push(match rng.below(8) {
                0 if standing > 2 => {
                    standing -= 1;
                    go(number)
                }
                0 | 1 if standing < 9 => {
                    standing += 1;
                    let [care, value] = rng.pick(&any);
                    come(care, value, 1)
                }
                2..=4 => {
                    let low = rng.below(6) as u16;
                    g(number, low, low + rng.below(6) as u16)
                }
                5 => page(0, 9),
                6 if rng.chance(1, 3) => b"C".to_vec(),
                _ => ranged_page(0, rng.between(1, 9) as u8),
            });
        }
        let terms = vec![term(0, 0, 1), term(1, 0, 1), term(0, 0, 1)];
        add(list, &draft(2, 1, [rows.clone(), terms, behind]), LONGEST);
    }
}
