//! A and D on the example of document 003, worked out by hand from K2.

use super::{
    answer_all, answers, ask_all, bytes, example_primes, example_rows, rivals, terms, Checks,
    EXAMPLE, EXAMPLE_ANSWERS, TERMS,
};
use crate::generate::{come, draft, go, row, term, Draft};
use crate::reference::LONGEST;

/// A seventh term comes, the list is looked at, and the term goes again.
pub fn seventh_term() -> Draft {
    let parts = [
        example_rows(),
        terms(&TERMS),
        vec![come(3, 3, 2)],
        ask_all(),
        vec![go(6)],
        ask_all(),
    ];
    draft(2, 2, parts)
}

/// The first term goes and comes again behind the others, then term 5 goes.
pub fn first_term_gone() -> Draft {
    let parts = [
        example_rows(),
        terms(&TERMS),
        vec![go(0)],
        ask_all(),
        vec![come(1, 0, 1)],
        ask_all(),
        vec![go(3)],
        ask_all(),
    ];
    draft(2, 2, parts)
}

/// The first of the primes goes and comes again behind the others.
pub fn prime_gone() -> Draft {
    let primes = vec![vec![b'P'], go(0)];
    let first = vec![come(1, 0, 1)];
    draft(2, 2, [example_rows(), primes, ask_all(), first, ask_all()])
}

pub fn run(checks: &mut Checks) {
    candidates(checks);
    met_rivals(checks);
    places(checks);
    refusals(checks);
}

/// In the example the wanted cells are (1, 0), held by terms 2 and 6, (2, 0), by 1
/// and 5, (2, 1), by 4 and 5, and (3, 1), by 3 and 4. So the irredundant covers are terms 1 and 4
/// with 2 or 6, and term 5 with 2 or 6 and with 3 or 4. Terms 2 and 5 cost 3, the others 1.
fn candidates(checks: &mut Checks) {
    let by_changes = bytes(&EXAMPLE.replace("54", "41"));
    checks.accepts("example by A", &by_changes, &bytes(EXAMPLE_ANSWERS));

    // The seventh term holds (3, 1) alone, so that it stands in for 3 or 4 beside term 5:
    // 2 + 16 + 64 and 16 + 32 + 64. It costs 3.
    let with = answer_all(&[11, 22, 26, 41, 52, 56, 82, 112], 3, 41);
    let without = answers(&[11, 22, 26, 41, 52, 56], 3, 41);
    let seventh = [with, without].concat();
    checks.accepts("a seventh term", &seventh_term().job(), &seventh);

    // Without term 1 only term 5 holds (2, 0). Terms 2 to 6 are numbers 0 to 4: 8 with 1 or 16 and
    // with 2 or 4. The cost is least with term 6: 3 + 1 + 1 both times.
    let gone = answer_all(&[11, 13, 26, 28], 5, 26);
    // Term 1 is number 5 now: 32 and 4 with 1 or 16 are covers again, the last one for 3.
    let back = answer_all(&[11, 13, 26, 28, 37, 52], 3, 52);
    // Without term 5, number 3, terms 6 and 1 are numbers 3 and 4: 16 and 4 with 1 or 8.
    let fifth = answers(&[21, 28], 3, 28);
    let first = [gone, back, fifth].concat();
    checks.accepts("the first term gone", &first_term_gone().job(), &first);

    // Primes without term 1: terms 3, 6, 4, 2 and 5 are numbers 0 to 4, so that term 5 is 16, with
    // 8 or 2 and with 1 or 4. Then term 1 is number 5: 32 and 4 with 8 or 2.
    let gone = answer_all(&[19, 22, 25, 28], 5, 19);
    let back = answers(&[19, 22, 25, 28, 38, 44], 3, 38);
    let primes = [example_primes(), gone, back].concat();
    checks.accepts("a prime gone", &prime_gone().job(), &primes);
}

/// The rival is met only while the candidates are the primes, whichever command put them there.
fn met_rivals(checks: &mut Checks) {
    let by_changes = bytes(&EXAMPLE.replace("54", "41"));
    checks.check("rival by A", rivals(&by_changes) == [Some(3); 2]);
    let (met, not_met) = ([Some(3); 2], [None; 2]);
    let right = rivals(&seventh_term().job()) == [not_met, met].concat();
    checks.check("rival without the seventh term", right);
    let right = rivals(&first_term_gone().job()) == [not_met, met, not_met].concat();
    checks.check("rival with all terms", right);
    let right = rivals(&prime_gone().job()) == [not_met, met].concat();
    checks.check("rival with all primes", right);
    let copy = draft(
        2,
        2,
        [example_rows(), vec![vec![b'P'], come(1, 0, 1)], ask_all()],
    );
    checks.check("rival with a prime twice", rivals(&copy.job()) == met);
}

/// Where R, P and T stand behind A and D. One row, wanted, is held by the term that comes.
fn places(checks: &mut Checks) {
    let head = "49 01 01 52 00 01 00 41 01 00 01";
    let job = |rest: &str| bytes(&[head, rest].concat());
    checks.refuses("R behind A", &job("52 01 00 00 45"), 9, (4, 11, 0));
    checks.refuses("P behind A", &job("50 45"), 9, (4, 11, 0));
    checks.refuses(
        "R behind A, gone",
        &job("44 00 52 01 00 00 45"),
        9,
        (4, 13, 0),
    );
    checks.refuses("P behind A, gone", &job("44 00 50 45"), 9, (4, 13, 0));
    checks.accepts("T behind A", &job("54 01 00 01 45"), &[0x65]);
    checks.accepts("T behind D", &job("44 00 54 01 00 01 45"), &[0x65]);
    checks.refuses(
        "T behind A and C",
        &job("43 41 01 00 01 54 01 00 01 45"),
        99,
        (4, 16, 11),
    );
    checks.refuses("A before I", &bytes("41 01 00 01"), 9, (4, 0, 0));
    checks.refuses("D before I", &bytes("44 00"), 9, (4, 0, 0));
    checks.refuses("A behind E", &job("45 41 01 00 01"), 9, (13, 11, 0));
}

/// 15, what is tried before it, and A with the refusals of T.
fn refusals(checks: &mut Checks) {
    let mut refuses = |name, hex, room, expected| checks.refuses(name, &bytes(hex), room, expected);
    refuses(
        "D with nothing standing",
        "49 01 01 44 00 45",
        0,
        (15, 3, 0),
    );
    refuses("5 before 15", "49 01 01 44", 0, (5, 3, 0));
    refuses("4 before 15", "44 00", 0, (4, 0, 0));
    refuses("A without its bytes", "49 01 01 41 00 00", 0, (5, 3, 0));
    refuses("A, 9 before 10", "49 01 01 41 00 01 01", 0, (9, 3, 0));
    refuses("A, 10 alone", "49 01 01 41 00 00 01", 0, (10, 3, 0));
    // The example's terms, or P, begin at offset 19, and what follows six terms at 43.
    let mut on_example = |name, changes: Vec<Vec<u8>>, expected| {
        let job = draft(2, 2, [example_rows(), terms(&TERMS), changes, ask_all()]);
        checks.refuses(name, &job.job(), LONGEST, expected);
    };
    on_example("D of the count", vec![go(6)], (15, 43, 0));
    on_example("D of 255", vec![go(255)], (15, 43, 0));
    on_example("D of the last twice", vec![go(5), go(5)], (15, 45, 0));
    // Terms 1 and 5 alone hold (2, 0).
    on_example("a wanted cell is let go", vec![go(4), go(0)], (12, 47, 0));
    let primes = draft(2, 2, [example_rows(), vec![vec![b'P'], go(6)]]);
    checks.refuses("D behind P", &primes.job(), 20, (15, 20, 20));
    // 64 terms of 4 bytes behind I and one row.
    let mut on_full = |name, changes: Vec<Vec<u8>>, expected| {
        let full = terms(&[[1, 1, 1]; 64]);
        let job = draft(1, 1, [vec![row(1, 1, 0)], full, changes]);
        checks.refuses(name, &job.job(), 0, expected);
    };
    on_full("a 65th by A", vec![come(1, 1, 1)], (11, 263, 0));
    on_full("A, 9 before 11", vec![come(2, 0, 1)], (9, 263, 0));
    on_full("A, 10 before 11", vec![come(0, 0, 1)], (10, 263, 0));
    let room = vec![go(63), come(1, 1, 1), term(1, 1, 1)];
    on_full("a 64th by A behind D", room, (11, 269, 0));
}
