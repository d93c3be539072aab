//! Covers with 32 and 33 members, and with 7 and 8 for an output.

use super::{ask_both_ways, LimitTable};
use crate::generate::draft::page;
use crate::generate::purpose::add;
use crate::generate::Case;

pub fn of_limits(list: &mut Vec<Case>) {
    of_members(list);
    of_members_or_one_more(list);
    of_each_output(list);
    of_output_or_one_more(list);
    of_several_outputs(list);
    of_free_outputs(list);
    of_blocks(list);
    of_equal_ones(list);
    of_both_limits(list);
    of_primes(list);
}

/// One cover, of so many members.
fn of_members(list: &mut Vec<Case>) {
    for m in [5, 7, 8] {
        for count in 30..=35 {
            let mut limited = LimitTable::new(m);
            limited.spread(count);
            ask_both_ways(list, &limited);
            limited.candidates.reverse();
            ask_both_ways(list, &limited);
            // Up to 64 stand, of which no further one is in the cover.
            while limited.candidates.len() < 64 {
                limited.idle(1);
            }
            ask_both_ways(list, &limited);
            limited.candidates.rotate_left(29);
            ask_both_ways(list, &limited);
        }
    }
    let mut all = LimitTable::new(8);
    all.spread(64);
    ask_both_ways(list, &all);
}

/// Two covers, one of which has a member more: it has two outputs by a term each or by one term.
fn of_members_or_one_more(list: &mut Vec<Case>) {
    for count in 28..=33 {
        for turned in [false, true] {
            let mut limited = LimitTable::new(8);
            limited.spread(count);
            limited.two_or_one(0x41);
            if turned {
                limited.candidates.reverse();
            }
            ask_both_ways(list, &limited);
            limited.two_or_one(0x82);
            ask_both_ways(list, &limited);
        }
    }
}

/// One cover, so many of whose members have this output, the highest one or not; and others.
fn of_each_output(list: &mut Vec<Case>) {
    for m in [1, 2, 5, 8] {
        for j in 0..m {
            for count in 5..=9 {
                let mut limited = LimitTable::new(m);
                (0..count).for_each(|_| limited.needed(1 << j, 1 << j));
                ask_both_ways(list, &limited);
                if m > 1 {
                    let other = 1 << ((j + 1) % m);
                    (0..6).for_each(|_| limited.needed(other, other));
                    limited.candidates.rotate_left(count - 3);
                    ask_both_ways(list, &limited);
                }
            }
        }
    }
    // Each output has seven: 56 members; or each member has all of them.
    for count in 6..=8 {
        let mut limited = LimitTable::new(8);
        limited.spread(8 * count.min(7));
        ask_both_ways(list, &limited);
        let mut wide = LimitTable::new(8);
        (0..count).for_each(|_| wide.needed(0xff, 0xff));
        ask_both_ways(list, &wide);
    }
}

/// A term or two hold the last vertices.
fn of_output_or_one_more(list: &mut Vec<Case>) {
    for count in 4..=8 {
        for pieces in [2, 3, 8] {
            for weight in [0, 850] {
                let mut limited = LimitTable::new(3);
                (0..count).for_each(|_| limited.needed(2, 2));
                limited.pieces(pieces, 2, weight);
                ask_both_ways(list, &limited);
                limited.candidates.reverse();
                ask_both_ways(list, &limited);
            }
        }
    }
}

/// Members that have two outputs count for both.
fn of_several_outputs(list: &mut Vec<Case>) {
    for (both, first, second) in [
        (3, 4, 4),
        (4, 4, 3),
        (4, 3, 4),
        (7, 0, 0),
        (8, 0, 0),
        (1, 6, 7),
    ] {
        for [one, other] in [[1, 2], [2, 1], [8, 64], [128, 1]] {
            let mut limited = LimitTable::new(8);
            (0..both).for_each(|_| limited.needed(one | other, one | other));
            (0..first).for_each(|_| limited.needed(one, one));
            (0..second).for_each(|_| limited.needed(other, other));
            ask_both_ways(list, &limited);
        }
    }
}

/// Outputs count that a member has, whether it holds a wanted cell there or not.
fn of_free_outputs(list: &mut Vec<Case>) {
    for count in 5..=9 {
        for (wanted, outputs) in [(1, 3), (2, 3), (1, 0x81), (0x80, 0xff)] {
            let mut limited = LimitTable::new(8);
            let plain = (count - 1) / 2;
            (0..plain).for_each(|_| limited.needed(outputs & !wanted, outputs));
            (plain..count).for_each(|_| limited.needed(wanted, outputs));
            ask_both_ways(list, &limited);
        }
    }
}

/// Blocks are members as terms are: the last one, each second one, all.
fn of_blocks(list: &mut Vec<Case>) {
    for count in 6..=9 {
        for step in [count, 2, 1] {
            let mut limited = LimitTable::new(2);
            (0..count).for_each(|_| limited.needed(2, 2));
            let last = count - 1;
            (0..count).for_each(|i| {
                if (last - i) % step == 0 {
                    limited.as_block(i, 3);
                }
            });
            ask_both_ways(list, &limited);
            limited.candidates.reverse();
            ask_both_ways(list, &limited);
        }
    }
    for count in [31, 32, 33] {
        for step in [count, 2, 1] {
            let mut limited = LimitTable::new(8);
            limited.spread(count);
            (0..count).for_each(|i| {
                if i % step == 0 {
                    limited.as_block(i, 0);
                }
            });
            ask_both_ways(list, &limited);
        }
    }
}

/// A candidate that stands twice is a member once: 8 have the output, 7 of them are members.
fn of_equal_ones(list: &mut Vec<Case>) {
    for count in 5..=8 {
        for number in [0, count - 1] {
            let mut limited = LimitTable::new(1);
            (0..count).for_each(|_| limited.needed(1, 1));
            limited.again(number);
            ask_both_ways(list, &limited);
            limited.again(number);
            limited.as_block(number, 5);
            ask_both_ways(list, &limited);
        }
    }
    for count in [31, 32, 33] {
        let mut limited = LimitTable::new(8);
        limited.spread(count);
        (0..3).for_each(|number| limited.again(number));
        ask_both_ways(list, &limited);
    }
}

/// Some covers fit, some have a member too many, some one too many for an output, some both. The order
/// of the candidates says which comes first.
fn of_both_limits(list: &mut Vec<Case>) {
    for count in [26, 27, 28] {
        let mut limited = by_both_limits(count);
        for _ in 0..4 {
            ask_both_ways(list, &limited);
            limited.candidates.rotate_left(9);
        }
    }
}

/// Beside so many members there are five, or six where an output takes two; and of the first output there
/// are from five to eight.
pub fn by_both_limits(count: usize) -> LimitTable {
    let mut limited = LimitTable::new(8);
    (0..4).for_each(|_| limited.needed(1, 1));
    (4..count).for_each(|i| limited.needed(2 << (i % 7), 2 << (i % 7)));
    limited.two_or_one(0xc0);
    limited.one_of(0x20, &[0, 1]);
    limited.one_of(0x10, &[1, 0]);
    limited.one_of(0x08, &[0, 1]);
    limited.one_of(0x08, &[1, 1]);
    limited
}

/// The primes as candidates: vertices of odd parity, no two of which are neighbours.
fn of_primes(list: &mut Vec<Case>) {
    for (m, counts) in [(1, 6..=9), (2, 13..=16), (8, 31..=34)] {
        for count in counts {
            let mut limited = LimitTable::new(m);
            let odd = (0..256usize).filter(|v| v.count_ones() % 2 == 1);
            for (i, v) in odd.take(count).enumerate() {
                limited.set(v, 1 << (i % m));
            }
            let asked = [vec![b"P".to_vec(), page(0, 9)], super::others()].concat();
            add(list, &limited.job(asked), 4_096);
            let before = [vec![b"P".to_vec()], super::others(), vec![page(1, 1)]].concat();
            add(list, &limited.job(before), 4_096);
        }
    }
}
