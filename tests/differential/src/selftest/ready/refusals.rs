//! What F meets and where it stands, by hand.

use super::f;
use crate::generate::{come, go, row, term};
use crate::selftest::{bytes, Checks, LONGEST};

/// Three inputs and two outputs: cell (0, 0) is wanted and (0, 1) free, and vertex 7 the other way
/// round. The rows end at offset 11.
fn head() -> Vec<u8> {
    [vec![b'I', 3, 2], row(0, 1, 2), row(7, 2, 1)].concat()
}

/// Vertices 0 and 7.
const BOTH: &[u8] = &[0x81];

pub fn run(checks: &mut Checks) {
    limits(checks);
    orders(checks);
    many(checks);
    places(checks);
    not_behind(checks);
}

/// A job of the head, an F and E: 0 for accepted.
fn meets(checks: &mut Checks, name: &str, block: Vec<u8>, number: u64) {
    let job = [head(), block, b"E".to_vec()].concat();
    if number == 0 {
        checks.accepts(name, &job, &[0x65]);
    } else {
        checks.refuses(name, &job, LONGEST, (number, 11, 0));
    }
}

/// 18 by each operand, and what is just not refused.
fn limits(checks: &mut Checks) {
    let mut meets = |name: &str, block, number| meets(checks, name, block, number);
    meets("F of both outputs", f(3, BOTH, 850), 0);
    meets("F of no vertex", f(1, &[], 0), 0);
    meets("F without outputs", f(0, BOTH, 1), 18);
    meets("F of output 2", f(4, BOTH, 1), 18);
    meets("F of output 0 and 2", f(5, BOTH, 1), 18);
    meets("F of output 7", f(0x80, BOTH, 1), 18);
    meets("F of vertex 8", f(1, &[1, 1], 1), 18);
    meets("F of vertex 15", f(1, &[0, 0x80], 1), 18);
    let mut far = [0; 32];
    far[31] = 0x80;
    meets("F of vertex 255", f(1, &far, 1), 18);
    meets("F of 849", f(1, BOTH, 849), 0);
    meets("F of 850", f(1, BOTH, 850), 0);
    meets("F of 851", f(1, BOTH, 851), 18);
    // The low byte of the first is 1, and the second is 850 with its bytes exchanged.
    meets("F of 1,025", f(1, BOTH, 1_025), 18);
    meets("F of 21,251", f(1, BOTH, 0x5203), 18);
    meets("F of 65,535", f(1, BOTH, 65_535), 18);
    meets("F of vertex 1", f(1, &[2], 1), 10);
    meets("F of all vertices", f(2, &[0xff], 1), 10);
    // Vertices 2 and 3 of two inputs are in the same byte as 4.
    let two = [bytes("49 02 01"), f(1, &[0x10], 1)].concat();
    checks.refuses("F of vertex 4 of 2", &two, 9, (18, 3, 0));
    let one = [bytes("49 01 01 52 01 01 00"), f(1, &[2], 1), b"E".to_vec()].concat();
    checks.accepts("F of vertex 1 of 1", &one, &[0x65]);
}

/// Where several numbers apply.
fn orders(checks: &mut Checks) {
    let mut meets = |name: &str, block: Vec<u8>, number| meets(checks, name, block, number);
    meets("18 by output before 10", f(5, &[2], 1), 18);
    meets("18 by vertex before 10", f(1, &[2, 1], 1), 18);
    meets("18 by weight before 10", f(1, &[2], 851), 18);
    let bad = f(0, &[2, 1], 851);
    for length in 1..36 {
        let job = [head(), bad[..length].to_vec()].concat();
        checks.refuses("5 before 18", &job, 9, (5, 11, 0));
        checks.refuses("4 before 5 at F", &bad[..length], 9, (4, 0, 0));
    }
    checks.refuses("4 before 18", &bad, 9, (4, 0, 0));
    let behind = [bytes("49 01 01 43"), bad.clone()].concat();
    checks.refuses("4 before 18 behind C", &behind, 99, (4, 4, 11));
    let wide = [bytes("49 03 02"), f(3, BOTH, 850)].concat();
    checks.refuses("10 without rows", &wide, 9, (10, 3, 0));
}

/// 64 blocks of 36 bytes stand: 11 behind 10 and 18, for T and A, too.
fn many(checks: &mut Checks) {
    let full = [head(), f(1, BOTH, 850).repeat(64)].concat();
    let at = 11 + 64 * 36;
    for (name, last, number) in [
        ("a 65th by F", f(1, BOTH, 1), 11),
        ("an empty 65th", f(1, &[], 1), 11),
        ("a 65th by T", term(7, 0, 1), 11),
        ("a 65th by A", come(7, 0, 1), 11),
        ("10 before 11 at F", f(1, &[2], 1), 10),
        ("18 before 11", f(1, BOTH, 851), 18),
    ] {
        let job = [full.clone(), last].concat();
        checks.refuses(name, &job, 9, (number, at, 0));
    }
    let room = [full, go(0), f(1, &[], 0), b"E".to_vec()].concat();
    checks.accepts("a 64th by F behind D", &room, &[0x65]);
    let terms = [head(), term(7, 0, 1).repeat(64), f(1, BOTH, 1)].concat();
    checks.refuses("F behind 64 terms", &terms, 9, (11, 11 + 256, 0));
}

fn places(checks: &mut Checks) {
    let good = || f(3, BOTH, 4);
    let mut accepts = |name: &str, commands: Vec<Vec<u8>>| {
        let job = [head(), commands.concat(), b"E".to_vec()].concat();
        checks.accepts(name, &job, &[0x65]);
    };
    accepts("F behind T", vec![term(7, 0, 1), good()]);
    accepts("F behind A", vec![come(7, 0, 1), good()]);
    accepts("F behind A and D", vec![come(7, 0, 1), go(0), good()]);
    accepts("F behind F", vec![good(), good()]);
    accepts("T behind F", vec![good(), term(7, 0, 1)]);
    accepts("A behind F", vec![good(), come(7, 0, 1)]);
    accepts("T behind F, gone", vec![good(), go(0), term(7, 0, 1)]);
    let mut refuses = |name: &str, before: &[u8], written| {
        let job = [before, &good()[..], b"E"].concat();
        checks.refuses(name, &job, LONGEST, (4, before.len(), written));
    };
    refuses("F before I", &[], 0);
    refuses("F behind P", &bytes("49 03 02 50"), 2);
    refuses("F behind C", &bytes("49 03 02 43"), 11);
    refuses("F behind N", &bytes("49 03 02 4e"), 11);
    let page = bytes("49 03 02 4c 00 00 00 00 00 00 00 00 00");
    refuses("F behind L", &page, 3);
    // A has come since, and the candidates have gone.
    let held = [head(), good(), bytes("43 44 00 41 07 00 01")].concat();
    refuses("F behind F, C, D and A", &held, 11);
    let job = [head(), good(), b"EF".to_vec()].concat();
    checks.refuses("F behind E", &job, 9, (13, 47, 0));
}

/// For the place of the others F counts as a T, also when it has gone.
fn not_behind(checks: &mut Checks) {
    for (name, command) in [
        ("I", "49 03 02"),
        ("W", "57 01 01 00"),
        ("R", "52 01 00 01"),
        ("B", "42 00 00 00 00 00 00 00 00 00 00 00 00 00 00 00 00 00"),
        ("P", "50"),
    ] {
        let block = [head(), f(3, BOTH, 4)].concat();
        let job = [block.clone(), bytes(command), b"E".to_vec()].concat();
        checks.refuses(&format!("{name} behind F"), &job, 99, (4, 47, 0));
        let job = [block, go(0), bytes(command), b"E".to_vec()].concat();
        checks.refuses(&format!("{name} behind F, gone"), &job, 99, (4, 49, 0));
    }
    let job = [head(), f(3, BOTH, 4), go(1), b"E".to_vec()].concat();
    checks.refuses("D of the count behind F", &job, 9, (15, 47, 0));
}
