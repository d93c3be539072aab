//! The presence function on the marked cases, worked out by hand, with the document's delta and
//! without; and that answers which do not go by it are seen.

use super::{answers, marked, Checks};
use crate::implicants;
use crate::reference::{self, Candidate, Outcome, Presence, Table, LONGEST};
use crate::walk::walk;

/// The presence of each set by its number from 0 on, by paper 01 and as the delta would have it. In
/// f and g every wanted cell is held by all candidates, in h by none, and e has none.
const EVERY_SET: [(char, &str, &str); 4] = [
    ('e', "1", "1"),
    ('f', "01", "11"),
    ('g', "0111", "1111"),
    ('h', "0", "1"),
];

/// The prime implicants in the same way. In a and d no wanted cell is held by all or by none.
const LISTS: [(char, &[u64], &[u64]); 6] = [
    ('a', &LIST_OF_A, &LIST_OF_A),
    ('d', &[11, 23, 45, 52, 58], &[11, 23, 45, 52, 58]),
    ('e', &[0], &[0]),
    ('f', &[1], &[0]),
    ('g', &[1, 2], &[0]),
    ('h', &[], &[0]),
];

const LIST_OF_A: [u64; 6] = [11, 22, 26, 41, 52, 56];

/// Answers to the questions of a marked case that are not due: a page from 0 on and the cheapest.
const WRONG: [(char, &[u64], u64, &str); 12] = [
    ('a', &[11, 22, 26, 41, 52], 41, "the last set left out"),
    ('a', &[22, 26, 41, 52, 56], 41, "the first set left out"),
    ('a', &[22, 11, 26, 41, 52, 56], 41, "sets that fall"),
    ('a', &[11, 22, 26, 41, 52, 58], 41, "a redundant cover"),
    ('a', &[10, 22, 26, 41, 52, 56], 41, "no cover"),
    ('a', &[75, 22, 26, 41, 52, 56], 41, "a bit of no candidate"),
    ('a', &LIST_OF_A, 43, "a redundant cheapest"),
    ('a', &LIST_OF_A, 40, "a cheapest that is no cover"),
    ('f', &[0], 1, "the delta in a list"),
    ('f', &[1], 0, "the delta in the cheapest"),
    ('g', &[1], 1, "a copy left out"),
    ('h', &[0], 0, "the delta instead of 12"),
];

pub fn run(checks: &mut Checks) {
    formulas(checks);
    points(checks);
    every_set(checks);
    lists(checks);
    right_answers(checks);
    wrong_answers(checks);
}

fn bits(text: &str) -> Vec<bool> {
    text.chars().map(|c| c == '1').collect()
}

fn outcome(job: &[u8]) -> Outcome {
    reference::run(job, &[0; LONGEST]).expect("small enough")
}

/// Table and candidates of a marked case.
fn problem(case: char) -> (Table, Vec<Candidate>) {
    let job = marked(case).job();
    let outcome = outcome(&job);
    let standing = walk(&job, &outcome).expect("sound answers").remove(0);
    (standing.table, standing.candidates)
}

fn presence(case: char) -> Presence {
    let (table, candidates) = problem(case);
    Presence::new(&table, &candidates)
}

/// Formula (2), and formula (3) without it.
fn formulas(checks: &mut Checks) {
    for values in ["", "0", "1", "00", "11", "000", "111"] {
        checks.check("delta of equal values", reference::delta(&bits(values)));
    }
    for values in ["01", "10", "001", "010", "100", "011", "101", "110"] {
        checks.check("delta of values", !reference::delta(&bits(values)));
    }
    // The functions 1 and 2 of three are 1. Bit 3 of a set is that of no function.
    let sums: Vec<bool> = (0..16).map(|s| reference::sum(&bits("011"), s)).collect();
    checks.check("sum", sums == bits("0011111100111111"));
}

/// By vertex, then output; the free cells (0, 0) and (1, 1) of case a are wanted in d only.
fn points(checks: &mut Checks) {
    let of_case = |case| reference::points(&problem(case).0);
    let a = [(1, 0), (2, 0), (2, 1), (3, 1)];
    let d = [(0, 0), (1, 0), (1, 1), (2, 0), (2, 1), (3, 1)];
    checks.check("points of case a", of_case('a') == a);
    checks.check("points of case d", of_case('d') == d);
    checks.check("points of case e", of_case('e') == []);
    checks.check("points of case h", of_case('h') == [(0, 0), (1, 0)]);
}

fn every_set(checks: &mut Checks) {
    for (case, own, with_delta) in EVERY_SET {
        let presence = presence(case);
        let seen = presence.of_every_set(Presence::presence);
        checks.check(&format!("presence in case {case}"), seen == bits(own));
        let seen = presence.of_every_set(Presence::presence_with_delta);
        let right = seen == bits(with_delta);
        checks.check(&format!("presence with delta in case {case}"), right);
    }
    // In case a it is 1 at the listed sets and at those above them.
    let presence = presence('a');
    let mut above = Vec::new();
    for s in 0..64u64 {
        above.push(LIST_OF_A.iter().any(|listed| listed & !s == 0));
    }
    let ways = [Presence::presence, Presence::presence_with_delta];
    let right = ways.iter().all(|way| presence.of_every_set(way) == above);
    checks.check("presence in case a", right);
}

fn lists(checks: &mut Checks) {
    for (case, own, with_delta) in LISTS {
        let presence = presence(case);
        let list = reference::prime_implicants(&presence.of_every_set(Presence::presence));
        checks.check(&format!("prime implicants of case {case}"), list == own);
        let by_delta = presence.of_every_set(Presence::presence_with_delta);
        let right = reference::prime_implicants(&by_delta) == with_delta;
        checks.check(&format!("prime implicants of case {case} by delta"), right);
    }
    // Set 0 is no implicant where the presence is 0 at 2 and 4 above it.
    let seen = reference::implicants(&bits("11010111"));
    checks.check("implicants", seen == bits("01010111"));
}

fn right_answers(checks: &mut Checks) {
    for case in "acdefgh".chars() {
        let job = marked(case).job();
        let held = implicants::check(&job, &outcome(&job));
        checks.check(&format!("answers of case {case}"), held.is_ok());
    }
}

fn wrong_answers(checks: &mut Checks) {
    let mut wrong = |name: &str, job: &[u8], outcome: Outcome| {
        let seen = implicants::check(job, &outcome).is_err();
        checks.check(&format!("not seen: {name}"), seen);
    };
    for (case, sets, cheapest, name) in WRONG {
        let job = marked(case).job();
        wrong(
            name,
            &job,
            Outcome::accepted(&job, answers(sets, 3, cheapest)),
        );
    }
    let job = marked('a').job();
    let mut more = answers(&LIST_OF_A, 3, 41);
    more[2] = 1;
    wrong("more that is none", &job, Outcome::accepted(&job, more));
    for (case, at) in [('e', 3), ('f', 15)] {
        let job = marked(case).job();
        wrong("12 that is not due", &job, refused(at, 12));
    }
    // 14 is tried behind 12.
    wrong("14 for 12", &marked('h').job(), refused(11, 14));
}

fn refused(offset: usize, number: u64) -> Outcome {
    Outcome {
        number,
        offset,
        written: 0,
        buffer: Vec::new(),
    }
}
