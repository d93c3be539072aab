//! Ranges of the example that are replaced, and candidates that come and go with theirs.

use super::{answers, example_job, g, listed, Checks};
use crate::generate::{come, go, ranged_page};

pub fn run(checks: &mut Checks) {
    replaced(checks);
    coming_and_going(checks);
}

/// The later one counts, whichever is wider, and whether V was asked between.
fn replaced(checks: &mut Checks) {
    let (dear, own, wide) = (g(0, 4, 4), g(0, 1, 1), g(0, 0, 850));
    for (name, ranges, sets) in [
        ("own behind dear", [dear.clone(), own.clone()], vec![41]),
        ("dear behind own", [own.clone(), dear.clone()], vec![52, 56]),
        (
            "dear behind wide",
            [wide.clone(), dear.clone()],
            vec![52, 56],
        ),
        ("own behind wide", [wide.clone(), own.clone()], vec![41]),
        (
            "wide behind dear",
            [dear.clone(), wide.clone()],
            vec![41, 52, 56],
        ),
    ] {
        let due = answers(&sets, 3, 41);
        checks.accepts(name, &example_job(&ranges).job(), &due);
    }
    let between = [dear, ranged_page(0, 9), own];
    let due = [listed(&[52, 56], 0), answers(&[41], 3, 41)].concat();
    checks.accepts("V between two G", &example_job(&between).job(), &due);
}

/// D takes the range along and moves the others down with theirs; A leaves them, and a new candidate
/// has its weight for both ends.
fn coming_and_going(checks: &mut Checks) {
    let first_again = || come(1, 0, 1);
    for (name, changes, sets, cost, set) in [
        // Without the second 41, 52 and 56 are left as 21, 26 and 28. The first stays at 4.
        (
            "D above a range",
            vec![g(0, 4, 4), go(1)],
            vec![26, 28],
            3,
            21,
        ),
        // Without the first 22, 26, 52 and 56 are left as 11, 13, 26 and 28: 7, 7, 5 and 5.
        ("D of a range", vec![g(0, 0, 0), go(0)], vec![26, 28], 5, 26),
        // The last costs 9 and moves down: 7, 7, 13 and 13.
        (
            "D below a range",
            vec![g(5, 9, 9), go(0)],
            vec![11, 13],
            5,
            26,
        ),
        (
            "G behind D",
            vec![go(0), g(4, 3, 3)],
            vec![11, 13, 26, 28],
            5,
            26,
        ),
        // The first comes again as the seventh: 74 and 104 have it in its place.
        (
            "A behind G",
            vec![g(0, 4, 4), first_again()],
            vec![104],
            3,
            41,
        ),
        (
            "G of what came",
            vec![first_again(), g(6, 0, 0)],
            vec![104],
            3,
            41,
        ),
        (
            "G of one of two equals",
            vec![first_again(), g(6, 2, 2)],
            vec![41],
            3,
            41,
        ),
        (
            "G of one of two equals, a tie",
            vec![first_again(), g(6, 1, 2)],
            vec![41, 104],
            3,
            41,
        ),
        // It goes and comes again behind the others: 41 is 52 now, and costs 3 again.
        (
            "D and A behind G",
            vec![g(0, 4, 4), go(0), first_again()],
            vec![52],
            3,
            52,
        ),
        // The last goes and comes again at the same number: its range has gone.
        (
            "D and A of the last",
            vec![g(5, 9, 9), go(5), come(2, 0, 1)],
            vec![41],
            3,
            41,
        ),
    ] {
        let due = answers(&sets, cost, set);
        checks.accepts(name, &example_job(&changes).job(), &due);
    }
}
