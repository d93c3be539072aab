//! G and V on small tables, worked out by hand from K11, with candidates and ranges that change in
//! `changes.rs`; the list by every choice of weights (`choices.rs`), what both meet (`refusals.rs`), the records (`dumps.rs`), and that wrong engines are
//! seen (`wrong.rs`).

mod changes;
mod choices;
mod dumps;
mod engines;
mod mistakes;
mod refusals;
mod wrong;

use super::{both_wanted, bytes, example_primes, example_rows, priced, terms, Checks, TERMS};
use crate::generate::{come, draft, page, range, ranged_page, ready, row, term, Draft};
use crate::reference::{Block, Range};
use crate::rng::Rng;

type Commands = Vec<Vec<u8>>;

fn g(number: u8, low: u16, high: u16) -> Vec<u8> {
    range(number, Range { low, high })
}

/// A page of V by its answer.
fn listed(sets: &[u64], more: u8) -> Vec<u8> {
    let mut answer = vec![0x76, sets.len() as u8, more];
    sets.iter().for_each(|set| answer.extend(set.to_le_bytes()));
    answer
}

fn cheapest(cost: u16, set: u64) -> Vec<u8> {
    let mut answer = vec![0x63];
    answer.extend(cost.to_le_bytes());
    answer.extend(set.to_le_bytes());
    answer
}

pub fn run(checks: &mut Checks, rng: &mut Rng) {
    written(checks);
    example(checks);
    changes::run(checks);
    pages(checks);
    equal_candidates(checks);
    shared_member(checks);
    blocks(checks);
    at_prices(checks);
    primes_and_nothing(checks);
    choices::run(checks, rng);
    refusals::run(checks);
    dumps::run(checks);
    wrong::run(checks, rng);
}

/// The bytes of both commands: numbers low byte first.
fn written(checks: &mut Checks) {
    checks.check("bytes of G", g(63, 1, 850) == bytes("47 3f 01 00 52 03"));
    let v = bytes("56 02 01 00 00 00 00 00 80 09");
    checks.check("bytes of V", ranged_page((1 << 63) + 258, 9) == v);
    let ends = Range {
        low: 258,
        high: 772,
    };
    checks.check("ends of G", Range::of(&bytes("02 01 04 03")) == ends);
}

/// The example with these commands, V, C and E.
fn example_job(behind: &[Vec<u8>]) -> Draft {
    let asked = vec![ranged_page(0, 255), b"C".to_vec()];
    draft(
        2,
        2,
        [example_rows(), terms(&TERMS), behind.to_vec(), asked],
    )
}

/// What the job above answers.
fn answers(sets: &[u64], cost: u16, set: u64) -> Vec<u8> {
    [listed(sets, 0), cheapest(cost, set), vec![0x65]].concat()
}

/// The weights are 1, 3, 1, 1, 3 and 1, and the covers 11, 22, 26, 41, 52 and 56 cost 5, 7, 7, 3, 5 and
/// 5. C answers 3 and 41 throughout.
fn example(checks: &mut Checks) {
    let all = [11, 22, 26, 41, 52, 56];
    for (name, ranges, sets) in [
        ("without G", vec![], vec![41]),
        // Without the sixth 11 is the cheapest: it costs 5, and 41 costs 2 and the sixth.
        ("sixth 1 to 2", vec![g(5, 1, 2)], vec![41]),
        ("sixth 1 to 3", vec![g(5, 1, 3)], vec![11, 41]),
        ("sixth 3", vec![g(5, 3, 3)], vec![11, 41]),
        ("sixth 4", vec![g(5, 4, 4)], vec![11]),
        ("sixth 4 to 9", vec![g(5, 4, 9)], vec![11]),
        ("sixth 0 to 850", vec![g(5, 0, 850)], vec![11, 41]),
        // Without the first 52 and 56 are.
        ("first 1 to 2", vec![g(0, 1, 2)], vec![41]),
        ("first 1 to 3", vec![g(0, 1, 3)], vec![41, 52, 56]),
        ("first 3", vec![g(0, 3, 3)], vec![41, 52, 56]),
        ("first 4 to 5", vec![g(0, 4, 5)], vec![52, 56]),
        // With both at 3 all six cost 7.
        (
            "first 3 to 4, sixth 3",
            vec![g(0, 3, 4), g(5, 3, 3)],
            vec![11, 22, 26, 41, 52, 56],
        ),
        // First at 2 and sixth at 3: 6, 7, 7, 6, 7, 7.
        (
            "first 2, sixth 3",
            vec![g(0, 2, 2), g(5, 3, 3)],
            vec![11, 41],
        ),
    ] {
        checks.accepts(
            &format!("ranges of the example, {name}"),
            &example_job(&ranges).job(),
            &answers(&sets, 3, 41),
        );
    }
    // Each cover has three members: with equal ends all cost the same.
    for (low, high) in [(0, 0), (1, 1), (850, 850), (0, 850), (7, 8)] {
        let ranges: Commands = (0..6).map(|i| g(i, low, high)).collect();
        let job = example_job(&ranges).job();
        let name = format!("all of the example at {low} to {high}");
        checks.accepts(&name, &job, &answers(&all, 3, 41));
    }
}

/// Start, count and more go by V's list, and not by L's.
fn pages(checks: &mut Checks) {
    let wide: Commands = (0..6).map(|i| g(i, 0, 850)).collect();
    let narrow = vec![g(5, 1, 3)];
    let mut page_is = |ranges: &Commands, start, count, sets: &[u64], more| {
        let asked = vec![ranged_page(start, count)];
        let parts = [example_rows(), terms(&TERMS), ranges.clone(), asked];
        let due = [listed(sets, more), vec![0x65]].concat();
        let name = format!("V from {start} on, {count}");
        checks.accepts(&name, &draft(2, 2, parts).job(), &due);
    };
    page_is(&wide, 0, 2, &[11, 22], 1);
    page_is(&wide, 22, 2, &[22, 26], 1);
    page_is(&wide, 23, 2, &[26, 41], 1);
    page_is(&wide, 42, 2, &[52, 56], 0);
    page_is(&wide, 56, 9, &[56], 0);
    page_is(&wide, 57, 9, &[], 0);
    page_is(&wide, u64::MAX, 9, &[], 0);
    page_is(&wide, 0, 0, &[], 1);
    page_is(&wide, 57, 0, &[], 0);
    page_is(&narrow, 0, 1, &[11], 1);
    page_is(&narrow, 0, 2, &[11, 41], 0);
    page_is(&narrow, 12, 1, &[41], 0);
    page_is(&narrow, 12, 0, &[], 1);
    page_is(&narrow, 42, 1, &[], 0);
    page_is(&narrow, 42, 0, &[], 0);
}

/// One input with both vertices wanted, and three terms that hold both.
fn three(ends: [(u16, u16); 3]) -> Vec<u8> {
    let ranges: Commands = (0..3)
        .map(|i| g(i, ends[i as usize].0, ends[i as usize].1))
        .collect();
    let asked = vec![ranged_page(0, 9), b"C".to_vec()];
    let standing = terms(&[[0, 0, 1]; 3]);
    draft(1, 1, [both_wanted(), standing, ranges, asked]).job()
}

/// Each one is a cover: it is listed where its low end is not above a high end of the others.
fn equal_candidates(checks: &mut Checks) {
    for (ends, sets) in [
        ([(1, 2), (2, 3), (3, 4)], vec![1, 2]),
        ([(1, 2), (3, 4), (2, 2)], vec![1, 4]),
        ([(5, 5), (4, 6), (6, 6)], vec![1, 2]),
        ([(5, 5), (5, 5), (5, 5)], vec![1, 2, 4]),
        ([(0, 850), (0, 850), (0, 850)], vec![1, 2, 4]),
        ([(850, 850), (850, 850), (849, 849)], vec![4]),
        ([(0, 0), (0, 850), (1, 850)], vec![1, 2]),
        ([(256, 256), (255, 255), (0, 257)], vec![2, 4]),
        ([(255, 256), (256, 511), (257, 257)], vec![1, 2]),
    ] {
        let name = format!("three alike at {ends:?}");
        checks.accepts(&name, &three(ends), &answers(&sets, 1, 1));
    }
}

/// Vertices 0, 1 and 3 of two inputs: the first term is in both covers, 3 and 13; the second holds
/// what the third and fourth hold. The range of the first decides nothing.
fn shared_member(checks: &mut Checks) {
    let rows = || vec![row(0, 1, 0), row(1, 1, 0), row(3, 1, 0)];
    let standing = || terms(&[[3, 0, 1], [1, 1, 1], [3, 1, 1], [3, 3, 1]]);
    for shared in [(0, 0), (0, 850), (3, 3)] {
        for (second, third, sets) in [
            ((7, 7), (2, 4), vec![3, 13]),
            ((8, 8), (2, 4), vec![13]),
            ((4, 4), (2, 4), vec![3]),
            ((5, 5), (2, 4), vec![3, 13]),
            ((1, 850), (3, 3), vec![3, 13]),
        ] {
            let ranges = vec![
                g(0, shared.0, shared.1),
                g(1, second.0, second.1),
                g(2, third.0, third.1),
            ];
            let asked = vec![ranged_page(0, 9), b"C".to_vec()];
            let job = draft(2, 1, [rows(), standing(), ranges, asked]);
            let name = format!("shared {shared:?}, second {second:?}");
            checks.accepts(&name, &job.job(), &answers(&sets, 4, 3));
        }
    }
}

/// Vertices 1 and 2 of two inputs: two terms of 3 each, and a block of 5 that has both.
fn blocks(checks: &mut Checks) {
    let block = ready(&Block::new(1, [1, 2], 5));
    for (name, ranges, sets) in [
        ("no range", vec![], vec![4]),
        ("block at 6", vec![g(2, 6, 6)], vec![3, 4]),
        ("block at 7", vec![g(2, 7, 7)], vec![3]),
        ("block at 5 to 7", vec![g(2, 5, 7)], vec![3, 4]),
        ("term at 2 to 3", vec![g(0, 2, 3)], vec![3, 4]),
        ("term at 1", vec![g(0, 1, 1)], vec![3]),
    ] {
        let list = [terms(&[[3, 1, 1], [3, 2, 1]]), vec![block.clone()], ranges];
        let asked = vec![ranged_page(0, 9), b"C".to_vec()];
        let job = draft(
            2,
            1,
            [vec![row(1, 1, 0), row(2, 1, 0)], list.concat(), asked],
        );
        checks.accepts(name, &job.job(), &answers(&sets, 5, 4));
    }
}

/// Without G a term has its cost at the job's prices for both ends.
fn at_prices(checks: &mut Checks) {
    let all = [11, 22, 26, 41, 52, 56];
    let job = priced(example_job(&[]), [0, 0, 0]).job();
    checks.accepts("V for nothing", &job, &answers(&all, 0, 11));
    // The term price alone: each cover has three members.
    let job = priced(example_job(&[]), [50, 0, 0]).job();
    checks.accepts("V at term prices", &job, &answers(&all, 150, 11));
    // At connection price 1 the second and fifth cost 2 more, the others 1 more: 9, 12, 12, 6, 9, 9.
    let job = priced(example_job(&[g(5, 2, 5)]), [1, 1, 1]).job();
    checks.accepts("V at 1, 1, 1", &job, &answers(&[11, 41], 6, 41));
    let job = priced(example_job(&[g(5, 2, 4)]), [1, 1, 1]).job();
    checks.accepts("V at 1, 1, 1, no tie", &job, &answers(&[41], 6, 41));
    // A term that comes behind G is charged so, too: 9 to 10 against 9, and against 10.
    for (term_price, sets) in [(9, vec![1, 2]), (10, vec![1, 2]), (8, vec![2])] {
        let changes = vec![term(0, 0, 1), g(0, 9, 10), come(0, 0, 1)];
        let asked = vec![ranged_page(0, 9), b"C".to_vec()];
        let job = draft(1, 1, [both_wanted(), changes, asked]);
        let job = priced(job, [term_price, 0, 0]).job();
        let due = answers(&sets, term_price.into(), 1);
        checks.accepts("A at prices", &job, &due);
    }
}

/// The primes of case c are terms 1, 3, 6, 4, 2 and 5; and where nothing is wanted 0 is listed.
fn primes_and_nothing(checks: &mut Checks) {
    for (ranges, sets) in [
        (vec![], vec![13]),
        // The others cost 5, 5, 5, 7 and 7; term 1 is in 13 and 25, and at 3 makes 13 cost 5.
        (vec![g(0, 1, 3)], vec![13, 38, 44]),
    ] {
        let asked = vec![ranged_page(0, 9), b"C".to_vec()];
        let job = draft(2, 2, [example_rows(), vec![b"P".to_vec()], ranges, asked]);
        let due = [example_primes(), answers(&sets, 3, 13)].concat();
        checks.accepts("V behind P", &job.job(), &due);
    }
    let asked = || vec![ranged_page(0, 9), b"C".to_vec(), page(0, 9)];
    let due = [
        listed(&[0], 0),
        cheapest(0, 0),
        bytes("6c 01 00"),
        vec![0; 8],
        vec![0x65],
    ];
    let job = draft(1, 1, [asked()]);
    checks.accepts("V over nothing", &job.job(), &due.concat());
    let free = vec![row(0, 0, 1), term(1, 0, 1), g(0, 0, 9)];
    let job = draft(1, 1, [free, asked()]);
    checks.accepts("V where nothing is wanted", &job.job(), &due.concat());
}
