//! W on small tables, worked out by hand from K6.

mod dumps;
pub mod engines;
mod wrong;

use super::{
    answers, ask_all, bytes, example_primes, marked, odd_parity, rivals, terms, Checks, LONGEST,
};
use crate::charged::charge;
use crate::generate::{block, draft, prices, row, Draft};
use crate::reference::{self, Prices, Term};
use crate::rng::Rng;

/// The job with W behind its I.
pub fn priced(mut draft: Draft, list: [u8; 3]) -> Draft {
    draft.commands.insert(1, prices(list));
    draft
}

/// 64 primes with eight literals and eight outputs, and only one cover: no set costs more.
pub fn dearest() -> Draft {
    let odd = (0..=255u8).filter(|v| v.count_ones() % 2 == 1).take(64);
    let rows = odd.map(|v| row(v, 255, 0)).collect();
    draft(8, 8, [rows, vec![vec![b'P']], ask_all()])
}

pub fn run(checks: &mut Checks, rng: &mut Rng) {
    charges(checks);
    two_readings(checks);
    marked_cases(checks);
    other_sets(checks);
    largest(checks);
    places(checks);
    around(checks);
    refusals(checks);
    met_rivals(checks);
    undercut(checks);
    dumps::run(checks);
    wrong::run(checks, rng);
}

/// A term with these literals and outputs.
fn with(literals: u32, outputs: u32) -> Term {
    let low = |count: u32| ((1u16 << count) - 1) as u8;
    Term {
        care: low(literals),
        value: 0,
        outputs: low(outputs),
    }
}

/// Prices, literals, outputs and the cost: 0 and 1 literals are not charged, each output is.
fn charges(checks: &mut Checks) {
    for (list, literals, outputs, cost) in [
        ([1, 1, 0], 0, 8, 1),
        ([1, 1, 0], 1, 8, 1),
        ([1, 1, 0], 2, 8, 3),
        ([7, 5, 3], 0, 1, 7 + 3),
        ([7, 5, 3], 1, 1, 7 + 3),
        ([7, 5, 3], 2, 1, 7 + 10 + 3),
        ([7, 5, 3], 3, 2, 7 + 15 + 6),
        ([7, 5, 3], 1, 8, 7 + 24),
        ([7, 5, 3], 8, 8, 7 + 40 + 24),
        ([0, 0, 0], 8, 8, 0),
        ([0, 50, 0], 1, 1, 0),
        ([0, 50, 0], 2, 1, 100),
        ([0, 0, 50], 8, 3, 150),
        ([50, 0, 0], 8, 8, 50),
        ([50, 50, 50], 8, 8, 850),
    ] {
        let t = with(literals, outputs);
        let right = Prices::of(&list).cost(&t) == cost && charge(list, &t) == cost;
        checks.check(
            &format!("{literals} literals, {outputs} outputs at {list:?}"),
            right,
        );
    }
}

/// K6 as the reference reads it and as the checks of answers do.
fn two_readings(checks: &mut Checks) {
    let list = [0, 1, 2, 49, 50];
    let mut right = true;
    for [a, b, c] in list
        .map(|a| list.map(|b| list.map(|c| [a, b, c])))
        .concat()
        .concat()
    {
        for (care, outputs) in (0..=255).zip((1..=255).rev().chain([255])) {
            let t = Term {
                care,
                value: 0,
                outputs,
            };
            right &= Prices::of(&[a, b, c]).cost(&t) == charge([a, b, c], &t);
        }
    }
    checks.check("two readings of K6", right);
}

/// Terms 2 and 5 of document 003 have two literals and two outputs, the others one and one. So in
/// case a set 41 has three of the cheap ones, which are never dearer; where literals and
/// connections are free all sets cost the same, as each has three. In case d 11 has two cheap ones
/// and term 2, 45 has four cheap ones, and the connections are as many: 11 is the cheapest while
/// two literals cost no more than a term.
fn marked_cases(checks: &mut Checks) {
    let (a, d) = ([11, 22, 26, 41, 52, 56], [11, 23, 45, 52, 58]);
    let c = [13, 25, 38, 44, 50, 56];
    for (case, sets, list, cost, set) in [
        ('a', &a[..], [1, 1, 0], 3, 41),
        ('a', &a, [0, 0, 0], 0, 11),
        ('a', &a, [5, 0, 0], 15, 11),
        ('a', &a, [0, 1, 0], 0, 41),
        ('a', &a, [0, 0, 1], 3, 41),
        ('a', &a, [50, 50, 50], 300, 41),
        ('d', &d, [1, 1, 0], 4, 45),
        ('d', &d, [2, 1, 0], 8, 11),
        ('d', &d, [3, 2, 0], 12, 45),
        ('d', &d, [3, 1, 0], 11, 11),
        ('d', &d, [0, 1, 7], 28, 45),
        ('d', &d, [2, 1, 5], 28, 11),
        ('d', &d, [50, 25, 50], 400, 11),
        ('d', &d, [50, 26, 50], 400, 45),
        ('c', &c, [50, 7, 2], 156, 13),
        ('c', &c, [0, 0, 0], 0, 13),
        ('e', &[0], [50, 50, 50], 0, 0),
        ('f', &[1], [50, 50, 50], 100, 1),
        ('f', &[1], [7, 9, 0], 7, 1),
        ('g', &[1, 2], [0, 0, 4], 4, 1),
    ] {
        let job = priced(marked(case), list).job();
        let asked = answers(sets, cost, set);
        let head = if case == 'c' {
            example_primes()
        } else {
            vec![]
        };
        let name = format!("case {case} at {list:?}");
        checks.accepts(&name, &job, &[head, asked].concat());
    }
    let job = priced(marked('h'), [0, 0, 0]).job();
    checks.refuses("case h with W", &job, LONGEST, (12, 15, 0));
}

/// Terms that hold the same wanted cell: the prices choose among them.
fn other_sets(checks: &mut Checks) {
    // One input, two outputs; (0, 0) is wanted and (0, 1) free. The first term drives both.
    let outputs = draft(
        1,
        2,
        [
            vec![row(0, 1, 2)],
            terms(&[[1, 0, 3], [1, 0, 1]]),
            ask_all(),
        ],
    );
    // Two inputs; vertex 0 is wanted and the others are free: two literals, one and none.
    let free = (1..4).map(|v| row(v, 0, 1)).collect();
    let by_literals = terms(&[[3, 0, 1], [1, 0, 1], [0, 0, 1]]);
    let literals = draft(2, 1, [vec![row(0, 1, 0)], free, by_literals, ask_all()]);
    for (name, job, sets, list, cost, set) in [
        ("outputs", &outputs, &[1, 2][..], [1, 1, 0], 1, 1),
        ("outputs", &outputs, &[1, 2], [1, 1, 1], 2, 2),
        ("outputs", &outputs, &[1, 2], [0, 0, 50], 50, 2),
        ("outputs", &outputs, &[1, 2], [0, 50, 0], 0, 1),
        ("literals", &literals, &[1, 2, 4], [1, 0, 0], 1, 1),
        ("literals", &literals, &[1, 2, 4], [1, 2, 0], 1, 2),
        ("literals", &literals, &[1, 2, 4], [0, 50, 1], 1, 2),
        ("literals", &literals, &[1, 2, 4], [0, 0, 50], 50, 1),
    ] {
        let job = priced(job.clone(), list).job();
        let name = format!("{name} at {list:?}");
        checks.accepts(&name, &job, &answers(sets, cost, set));
    }
}

/// The highest cost of all needs both bytes: 64 times 850.
fn largest(checks: &mut Checks) {
    let cost_of = |draft: Draft, list| {
        let job = priced(draft, list).job();
        let asked = reference::asked(&job).expect("a sound job");
        asked.queries[1].answer.clone()
    };
    let all = [0xff; 8];
    let due = [&[0x63, 0x80, 0xd4][..], &all].concat();
    checks.check("64 times 850", cost_of(dearest(), [50; 3]) == due);
    // 64 primes of seven literals and one output: 64 times 50 + 350 + 50.
    let due = [&[0x63, 0x80, 0x70][..], &all].concat();
    checks.check("64 times 450", cost_of(odd_parity(7), [50; 3]) == due);
}

/// W stands right behind I, once.
fn places(checks: &mut Checks) {
    checks.accepts("W and E", &bytes("49 01 01 57 32 32 32 45"), &[0x65]);
    checks.accepts("W of nothing", &bytes("49 01 01 57 00 00 00 45"), &[0x65]);
    let mut refuses = |name, before: &str, offset, written| {
        let job = bytes(&[before, "57 01 01 00 45"].concat());
        checks.refuses(name, &job, LONGEST, (4, offset, written));
    };
    refuses("W before I", "", 0, 0);
    refuses("W twice", "49 01 01 57 01 01 00", 7, 0);
    refuses("W behind R", "49 01 01 52 00 00 00", 7, 0);
    refuses("W behind T", "49 01 01 52 00 01 00 54 01 00 01", 11, 0);
    refuses("W behind A", "49 01 01 52 00 01 00 41 01 00 01", 11, 0);
    refuses(
        "W behind T, gone",
        "49 01 01 52 00 01 00 54 01 00 01 44 00",
        13,
        0,
    );
    refuses("W behind P", "49 01 01 50", 4, 2);
    refuses("W behind C", "49 01 01 43", 4, 11);
    refuses(
        "W behind L",
        "49 01 01 4c 00 00 00 00 00 00 00 00 00",
        13,
        3,
    );
    refuses("W behind W and C", "49 01 01 57 01 01 00 43", 8, 11);
    let rows = [bytes("49 03 01"), block(0, [[0, 0]; 8])].concat();
    let job = [rows, bytes("57 01 01 00 45")].concat();
    checks.refuses("W behind B", &job, 9, (4, 21, 0));
}

/// Other commands around W.
fn around(checks: &mut Checks) {
    let mut refuses = |name, hex, expected| checks.refuses(name, &bytes(hex), 9, expected);
    refuses("W behind E", "49 01 01 45 57 01 01 00", (13, 3, 0));
    refuses(
        "W before I and behind",
        "57 01 01 00 49 01 01 45",
        (4, 0, 0),
    );
    refuses("I behind W", "49 01 01 57 01 01 00 49 01 01 45", (4, 7, 0));
    refuses("D behind W", "49 01 01 57 01 01 00 44 00 45", (15, 7, 0));
    refuses("D before W", "49 01 01 44 00 57 01 01 00 45", (15, 3, 0));
    let job = bytes("49 01 01 57 01 01 00 45");
    checks.refuses("W and no room for E", &job, 0, (14, 7, 0));
}

/// 16, and what is tried before it.
fn refusals(checks: &mut Checks) {
    let mut refuses = |name, hex, expected| checks.refuses(name, &bytes(hex), 9, expected);
    refuses("51 for a term", "49 01 01 57 33 00 00 45", (16, 3, 0));
    refuses("51 for a literal", "49 01 01 57 00 33 00 45", (16, 3, 0));
    refuses("51 for a connection", "49 01 01 57 00 00 33 45", (16, 3, 0));
    refuses("255 for all", "49 01 01 57 ff ff ff 45", (16, 3, 0));
    refuses("W without its bytes", "49 01 01 57", (5, 3, 0));
    refuses("W with one byte", "49 01 01 57 01", (5, 3, 0));
    refuses("W with two bytes", "49 01 01 57 01 01", (5, 3, 0));
    refuses("5 before 16", "49 01 01 57 33 ff", (5, 3, 0));
    refuses("4 before 16", "57 33 33 33", (4, 0, 0));
    refuses("4 before 5 at W", "57 01", (4, 0, 0));
    refuses(
        "4 before 16, twice",
        "49 01 01 57 01 01 00 57 33 00 00",
        (4, 7, 0),
    );
    refuses(
        "16 at the first of two",
        "49 01 01 57 00 33 00 57 01 01 00",
        (16, 3, 0),
    );
}

/// At connection price 0 the rival pays what the cheapest costs; with connections he is not met.
fn met_rivals(checks: &mut Checks) {
    for (case, list, cost) in [
        ('c', [5, 0, 0], Some(15)),
        ('c', [0, 0, 0], Some(0)),
        ('d', [2, 1, 0], Some(8)),
        ('d', [3, 1, 0], Some(11)),
        ('d', [50, 26, 0], Some(200)),
        ('f', [7, 9, 0], Some(7)),
        ('c', [1, 1, 1], None),
        ('d', [0, 0, 50], None),
        ('f', [50, 50, 50], None),
    ] {
        let right = rivals(&priced(marked(case), list).job()) == [cost; 2];
        checks.check(&format!("rival of case {case} at {list:?}"), right);
    }
}

/// K6's condition is needed. Output 0 is wanted and output 1 free everywhere, so the only prime
/// drives both; a list with the term that drives output 0 alone pays one connection less.
fn undercut(checks: &mut Checks) {
    let rows = vec![row(0, 1, 2), row(1, 1, 2)];
    let job = draft(1, 2, [rows, vec![vec![b'P']], ask_all()]);
    for (list, cheapest, rival) in [
        ([1, 1, 0], 1, 1),
        ([1, 1, 1], 3, 2),
        ([0, 0, 50], 100, 50),
        ([50, 50, 50], 150, 100),
    ] {
        let asked = reference::asked(&priced(job.clone(), list).job()).expect("a sound job");
        let query = &asked.queries[1];
        let answer = [vec![0x63, cheapest, 0], vec![1, 0, 0, 0, 0, 0, 0, 0]].concat();
        checks.check("the prime's cost", query.answer == answer);
        let (table, of_all) = (&asked.table, &query.candidates);
        let free = reference::rival_at_any_price(table, asked.prices, of_all);
        checks.check("a list with fewer connections", free == Some(rival));
        let met = reference::rival(table, asked.prices, of_all);
        let due = (list[2] == 0).then_some(rival);
        checks.check("the rival is left out", met == due);
    }
}
