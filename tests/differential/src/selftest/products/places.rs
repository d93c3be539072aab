//! N's places, by hand: where L may stand, and as an L for the others.

use crate::reference;
use crate::selftest::{bytes, Checks, LONGEST};

/// One input and one output; vertex 0 is wanted, and the term holds it.
const HELD: &str = "49 01 01 52 00 01 00 54 01 00 01";
/// One product: the term alone.
const FIRST: &str = "6e 01 00 01 00 00 00 00 00 00 00";
/// One product with no members.
const NONE: &str = "6e 01 00 00 00 00 00 00 00 00 00";

pub fn run(checks: &mut Checks) {
    taken(checks);
    not_behind(checks);
    changes(checks);
    refusals(checks);
    records(checks);
}

fn taken(checks: &mut Checks) {
    let mut accepts = |name, job: &[&str], answers: &[&str]| {
        checks.accepts(name, &bytes(&job.concat()), &bytes(&answers.concat()));
    };
    accepts("N behind I", &["49 01 01 4e 45"], &[NONE, "65"]);
    accepts("N behind W", &["49 01 01 57 01 01 01 4e 45"], &[NONE, "65"]);
    accepts("N behind R", &["49 01 01 52 00 00 01 4e 45"], &[NONE, "65"]);
    accepts("N behind T", &[HELD, "4e 45"], &[FIRST, "65"]);
    accepts("N twice", &[HELD, "4e 4e 45"], &[FIRST, FIRST, "65"]);
    let page = "4c 00 00 00 00 00 00 00 00 01";
    let paged = "6c 01 00 01 00 00 00 00 00 00 00";
    accepts("N behind L", &[HELD, page, "4e 45"], &[paged, FIRST, "65"]);
    accepts(
        "L behind N",
        &[HELD, "4e", page, "45"],
        &[FIRST, paged, "65"],
    );
    let cheapest = "63 01 00 01 00 00 00 00 00 00 00";
    accepts(
        "N and C",
        &[HELD, "43 4e 43 45"],
        &[cheapest, FIRST, cheapest, "65"],
    );
    // The prime of one wanted vertex is the vertex.
    let primes = "49 01 01 52 00 01 00 50 4e 45";
    accepts("N behind P", &[primes], &["70 01 01 00 01", FIRST, "65"]);
}

/// What may not follow an L may not follow N.
fn not_behind(checks: &mut Checks) {
    for (name, command) in [
        ("W", "57 01 01 00"),
        ("R", "52 01 00 01"),
        ("B", "42 00 00 00 00 00 00 00 00 00 00 00 00 00 00 00 00 00"),
        ("T", "54 01 00 01"),
        ("P", "50"),
        ("I", "49 01 01"),
    ] {
        let job = bytes(&["49 01 01 4e", command, "45"].concat());
        checks.refuses(&format!("{name} behind N"), &job, 99, (4, 4, 11));
        let job = bytes(&[HELD, "4e", command, "45"].concat());
        checks.refuses(&format!("{name} behind T and N"), &job, 99, (4, 12, 11));
    }
    let mut refuses = |name, hex: &[&str], room, expected| {
        checks.refuses(name, &bytes(&hex.concat()), room, expected);
    };
    refuses("N before I", &["4e 49 01 01 45"], 99, (4, 0, 0));
    refuses("N behind E", &["49 01 01 45 4e"], 99, (13, 3, 0));
    refuses("5 behind 4 at T", &[HELD, "4e 54"], 99, (4, 12, 11));
    refuses(
        "T behind N, A and D",
        &[HELD, "4e 41 01 00 01 44 00 54"],
        99,
        (4, 18, 11),
    );
}

/// A and D may follow: the products are those of the standing candidates.
fn changes(checks: &mut Checks) {
    let second = "6e 02 00 01 00 00 00 00 00 00 00 02 00 00 00 00 00 00 00";
    let job = [HELD, "4e 41 01 00 01 4e 44 00 4e 45"].concat();
    let due = [FIRST, second, FIRST, "65"].concat();
    checks.accepts("A and D behind N", &bytes(&job), &bytes(&due));
    let job = bytes(&[HELD, "4e 44 00 4e 45"].concat());
    checks.refuses("N of what has gone", &job, 99, (12, 14, 11));
    let job = bytes("49 01 01 4e 44 00 45");
    checks.refuses("D of none behind N", &job, 99, (15, 4, 11));
}

fn refusals(checks: &mut Checks) {
    let mut refuses = |name, hex: &[&str], room, expected| {
        checks.refuses(name, &bytes(&hex.concat()), room, expected);
    };
    refuses("10 bytes for N", &["49 01 01 4e 45"], 10, (14, 3, 0));
    refuses("11 bytes for N", &["49 01 01 4e 45"], 11, (14, 4, 11));
    refuses(
        "12 before 14 at N",
        &["49 01 01 52 00 01 00 4e"],
        0,
        (12, 7, 0),
    );
    refuses("N ends the job", &["49 01 01 4e"], LONGEST, (2, 4, 11));
    refuses("N and no command", &["49 01 01 4e 00"], LONGEST, (3, 4, 11));
}

/// N leaves the place of an L; refused, it leaves the record as it was.
fn records(checks: &mut Checks) {
    let mut leaves = |name: &str, hex: &str, text: &str| {
        let (_, seen) = reference::record(&bytes(hex)).expect("small enough");
        checks.check(&format!("record, {name}"), seen == text);
    };
    leaves(
        "N behind I",
        "49 01 01 4e",
        "number 2 offset 4 written 11\nplace 5\ninputs 1 outputs 1\nprices 1 1 0\n",
    );
    leaves(
        "N behind W and A",
        "49 01 01 57 02 03 04 52 00 01 00 41 01 00 01 4e",
        "number 2 offset 16 written 11\nplace 5\ninputs 1 outputs 1\nprices 2 3 4\n\
         row 0 on 01 dc 00\ncandidate 0 care 01 value 00 outputs 01 weight 6 low 6 high 6\n",
    );
    leaves(
        "N of an unheld cell",
        "49 01 01 52 00 01 00 4e",
        "number 12 offset 7 written 0\nplace 3\ninputs 1 outputs 1\nprices 1 1 0\n\
         row 0 on 01 dc 00\n",
    );
}
