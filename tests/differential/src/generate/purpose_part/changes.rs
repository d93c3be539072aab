//! Candidates that come and go between pages, so that covers fit and do not.

use super::{others, Commands, LimitTable};
use crate::generate::draft::{come, go, page, range};
use crate::generate::limit_tables::at_vertex;
use crate::generate::purpose::add;
use crate::generate::Case;
use crate::reference::{Candidate, Range, LONGEST};

pub fn of_changes(list: &mut Vec<Case>) {
    of_fitting_again(list);
    of_other_outputs(list);
    of_each_going(list);
    of_members(list);
}

fn by_come(candidate: Candidate) -> Vec<u8> {
    let t = candidate.term().expect("a term");
    come(t.care, t.value, t.outputs)
}

fn whole() -> Commands {
    vec![page(0, 255)]
}

/// Eight vertices of an output by a term each, and one term for all of them, which comes and goes.
fn of_fitting_again(list: &mut Vec<Case>) {
    let mut limited = LimitTable::new(2);
    (0..8).for_each(|_| limited.needed(2, 2));
    let all = come(0xf8, 0, 2);
    let steps: [Commands; 7] = [
        vec![all.clone()],
        vec![go(8)],
        vec![all.clone()],
        vec![go(0)],
        vec![all.clone()],
        vec![go(7), go(7)],
        vec![all],
    ];
    for end in 0..=steps.len() {
        // Asked behind each step, where it is answered, and behind the last one alone.
        let last = steps[..end].concat();
        add(
            list,
            &limited.job([last, whole(), others()].concat()),
            LONGEST,
        );
        for first in 1..=end {
            let mut asked = steps[..first].concat();
            for step in &steps[first..end] {
                asked.extend([whole(), step.clone()].concat());
            }
            asked.extend([others(), whole(), whole()].concat());
            add(list, &limited.job(asked), LONGEST);
        }
    }
}

/// A term has an output too many: it goes and comes again without it.
fn of_other_outputs(list: &mut Vec<Case>) {
    for wide in 0..4 {
        let mut limited = LimitTable::new(2);
        (0..4).for_each(|_| limited.needed(1, 1));
        (0..4).for_each(|_| limited.needed(2, 3));
        let narrow = |v: usize| by_come(Candidate::Term(at_vertex(v, 2)));
        let number = 4 + wide;
        let turned = vec![go(number as u8), narrow(number)];
        let fits = [turned.clone(), whole()].concat();
        add(list, &limited.job(fits.clone()), LONGEST);
        add(
            list,
            &limited.job([others(), fits.clone()].concat()),
            LONGEST,
        );
        // With the wide one beside it there are two covers, of which one fits.
        let both = vec![narrow(number), page(0, 9), page(0, 0)];
        add(
            list,
            &limited.job([both.clone(), others()].concat()),
            LONGEST,
        );
        let back = vec![go(8), page(0, 9)];
        add(list, &limited.job([both, back].concat()), LONGEST);
        let again = vec![by_come(limited.candidates[number]), page(0, 9)];
        add(list, &limited.job([fits, again].concat()), LONGEST);
    }
}

/// Each candidate goes, so that all above move down with their outputs. Each cell has two holders.
fn of_each_going(list: &mut Vec<Case>) {
    let mut limited = LimitTable::new(3);
    (0..5).for_each(|_| limited.needed(1, 1));
    limited.one_of(2, &[1, 0]);
    limited.one_of(4, &[0, 1]);
    limited.one_of(2, &[1, 1]);
    (0..5).for_each(|number| limited.again(number));
    limited.as_block(6, 4);
    for number in 0..limited.candidates.len() {
        let ranged = range(0, Range { low: 0, high: 9 });
        let one = [vec![go(number as u8)], whole(), vec![ranged], others()].concat();
        add(list, &limited.job(one.clone()), LONGEST);
        add(list, &limited.job([whole(), one.clone()].concat()), LONGEST);
        for second in [0, 3, 7, 11] {
            let two = [one.clone(), vec![go(second)], whole()].concat();
            add(list, &limited.job(two), LONGEST);
        }
    }
}

/// Near 32 members: one more comes with a cell that another holds, and that one goes.
fn of_members(list: &mut Vec<Case>) {
    for count in [30, 31, 32] {
        let mut limited = LimitTable::new(8);
        limited.spread(count);
        limited.two_or_one(0x41);
        let last = limited.candidates.len() as u8 - 1;
        for number in [0, last - 2, last - 1, last] {
            let again = by_come(limited.candidates[usize::from(number)]);
            let asked = [
                vec![page(0, 9), go(number), again],
                whole(),
                vec![page(1 << 31, 1), go(last)],
                others(),
                whole(),
            ];
            add(list, &limited.job(asked.concat()), LONGEST);
            let gone = [vec![go(number)], others(), whole()].concat();
            add(list, &limited.job(gone), LONGEST);
        }
        let by_primes = vec![come(255, 0, 1), page(0, 9)];
        add(list, &limited.job([whole(), by_primes].concat()), LONGEST);
    }
}
