//! B on small tables, worked out by hand from K3.

use super::{bytes, Checks};
use crate::expanded::expand;
use crate::generate::{block, row, Pairs};
use crate::reference::LONGEST;

const EMPTY: Pairs = [[0, 0]; 8];

/// Three inputs; vertices 1 to 6 are wanted.
const RING: &str = "49 03 01 42 00 00 00 01 00 01 00 01 00 01 00 01 00 01 00 00 00 \
    50 4c 00 00 00 00 00 00 00 00 ff 43 45";

const RING_BY_ROWS: &str = "49 03 01 52 00 00 00 52 01 01 00 52 02 01 00 52 03 01 00 52 04 01 00 \
    52 05 01 00 52 06 01 00 52 07 00 00 50 4c 00 00 00 00 00 00 00 00 ff 43 45";

/// The wanted vertices are neighbours in a ring: 1, 3, 2, 6, 4, 5. The primes are its six sides, in
/// their order 5-1, 2-6, 1-3, 6-4, 3-2, 4-5. Every other side is a cover, 25 and 38, and so are two
/// sides, one left out, two sides, one left out: 15, 51, 60. A side has two literals and costs 3.
const RING_ANSWERS: &str = "70 06 03 01 01 03 02 01 05 01 01 05 04 01 06 02 01 06 04 01 \
    6c 05 00 0f 00 00 00 00 00 00 00 19 00 00 00 00 00 00 00 26 00 00 00 00 00 00 00 \
    33 00 00 00 00 00 00 00 3c 00 00 00 00 00 00 00 63 09 00 19 00 00 00 00 00 00 00 65";

/// Four inputs, two outputs: R for 15, B for 3 to 10, R for 11, then five terms.
const MIXED: &str = "49 04 02 52 0f 00 01 42 03 01 02 00 00 00 00 00 00 02 01 00 02 00 00 02 00 \
    52 0b 01 00 54 03 03 01 54 0b 03 03 54 0f 0b 01 54 0f 08 02 54 0f 0a 02 \
    4c 00 00 00 00 00 00 00 00 ff 43 45";

const MIXED_BY_ROWS: &str = "49 04 02 52 0f 00 01 52 03 01 02 52 04 00 00 52 05 00 00 52 06 00 00 \
    52 07 02 01 52 08 00 02 52 09 00 00 52 0a 02 00 \
    52 0b 01 00 54 03 03 01 54 0b 03 03 54 0f 0b 01 54 0f 08 02 54 0f 0a 02 \
    4c 00 00 00 00 00 00 00 00 ff 43 45";

/// Wanted are (3, 0), held by terms 0 and 1, (7, 1), by 1, (10, 1), by 4, and (11, 0), by 0 and 2;
/// term 3 holds a free cell only. So 1 and 4 stand with 0 or with 2: 19 for 3 + 4 + 5, and 22.
const MIXED_ANSWERS: &str = "6c 02 00 13 00 00 00 00 00 00 00 16 00 00 00 00 00 00 00 \
    63 0c 00 13 00 00 00 00 00 00 00 65";

pub fn ring() -> Vec<u8> {
    bytes(RING)
}

pub fn mixed() -> Vec<u8> {
    bytes(MIXED)
}

pub fn run(checks: &mut Checks) {
    tables(checks);
    written_out(checks);
    vertices(checks);
    first_refusals(checks);
    lengths(checks);
    places(checks);
}

fn tables(checks: &mut Checks) {
    checks.accepts("ring by B", &ring(), &bytes(RING_ANSWERS));
    checks.accepts("ring by R", &bytes(RING_BY_ROWS), &bytes(RING_ANSWERS));
    checks.accepts("mixed by B", &mixed(), &bytes(MIXED_ANSWERS));
    checks.accepts("mixed by R", &bytes(MIXED_BY_ROWS), &bytes(MIXED_ANSWERS));
}

/// The jobs with R for B, and where the walk ends.
fn written_out(checks: &mut Checks) {
    let mut expands = |name, job: &[u8], expected: &[u8], first| {
        let expanded = expand(job);
        let right = expanded.job == expected && expanded.first == first;
        checks.check(name, right);
    };
    expands("R for ring", &ring(), &bytes(RING_BY_ROWS), Some(3));
    expands("R for mixed", &mixed(), &bytes(MIXED_BY_ROWS), Some(7));
    let with_block = |head: &str| [bytes(head), block(0, EMPTY)].concat();
    for head in ["49 03 01 45", "49 03 01 00", "49 03 01 54 42", "45"] {
        let job = with_block(head);
        expands(head, &job, &job, None);
    }
    let cut = &ring()[..20];
    expands("R for no whole B", cut, cut, None);
    let high = [row(254, 0, 0), row(255, 0, 0).repeat(7)].concat();
    expands("R for 254 on", &block(254, EMPTY), &high, Some(0));
}

/// A job of I, some rows, a B and E, and what it is refused with, at B's offset; 0 for accepted.
fn meets(checks: &mut Checks, name: &str, head: &str, block: Vec<u8>, number: u64) {
    let head = bytes(head);
    let job = [head.as_slice(), &block, b"E"].concat();
    if number == 0 {
        checks.accepts(name, &job, &[0x65]);
    } else {
        checks.refuses(name, &job, LONGEST, (number, head.len(), 0));
    }
}

fn with(place: usize, pair: [u8; 2]) -> Pairs {
    let mut rows = EMPTY;
    rows[place] = pair;
    rows
}

/// 2^n is reached within B, and 256 is above it.
fn vertices(checks: &mut Checks) {
    let mut meets = |name, head, block, number| meets(checks, name, head, block, number);
    // The paper's example has two inputs: vertex 4 is refused.
    let mut example: Pairs = EMPTY;
    example[..4].copy_from_slice(&[[0, 1], [1, 2], [3, 0], [2, 0]]);
    meets("example by B", "49 02 02", block(0, example), 7);
    example[3] = [2, 2];
    meets("example, row 3 bad", "49 02 02", block(0, example), 8);
    example[3] = [2, 0];
    example[4] = [2, 2];
    meets("example, row 4 bad", "49 02 02", block(0, example), 7);
    meets("one input", "49 01 01", block(0, EMPTY), 7);
    meets("three inputs", "49 03 01", block(0, EMPTY), 0);
    meets("three inputs from 1 on", "49 03 01", block(1, EMPTY), 7);
    meets("four inputs to 15", "49 04 01", block(8, EMPTY), 0);
    meets("four inputs to 16", "49 04 01", block(9, EMPTY), 7);
    meets("to 255", "49 08 01", block(248, EMPTY), 0);
    meets("to 256", "49 08 01", block(249, EMPTY), 7);
    meets("from 255 on", "49 08 01", block(255, EMPTY), 7);
    let zero = "49 08 01 52 00 00 00";
    meets("to 255, 0 has a row", zero, block(248, EMPTY), 0);
    meets("to 256, 0 has a row", zero, block(249, EMPTY), 7);
    meets("255 bad", "49 08 01", block(249, with(6, [1, 1])), 8);
    meets("256 bad", "49 08 01", block(249, with(7, [1, 1])), 7);
    meets("255 bad, first", "49 08 01", block(255, with(0, [0, 2])), 8);
    meets(
        "256 bad, second",
        "49 08 01",
        block(255, with(1, [0, 2])),
        7,
    );
}

/// Row by row, and 7 before 8 within a row.
fn first_refusals(checks: &mut Checks) {
    let mut meets = |name, head, block, number| meets(checks, name, head, block, number);
    let seven = "49 03 01 52 07 00 00";
    let one = "49 03 01 52 01 00 00";
    meets("8 early, 7 late", seven, block(0, with(6, [1, 1])), 8);
    meets("7 and 8 at once", seven, block(0, with(7, [1, 1])), 7);
    meets("7 early, 8 late", one, block(0, with(2, [1, 1])), 7);
    meets("8 just before 7", one, block(0, with(0, [1, 1])), 8);
    meets("on above m", "49 03 01", block(0, with(7, [2, 0])), 8);
    meets("dc above m", "49 03 07", block(0, with(3, [0, 128])), 8);
    let below = "49 04 01 42 00 00 00 00 00 00 00 00 00 00 00 00 00 00 00 00 00";
    meets("B behind B", below, block(8, EMPTY), 0);
    meets("B over B's last", below, block(7, EMPTY), 7);
    let above = "49 04 01 42 08 00 00 00 00 00 00 00 00 00 00 00 00 00 00 00 00";
    meets("B below B", above, block(0, EMPTY), 0);
    meets("B over B's first", above, block(1, EMPTY), 7);
    meets("8 before B's first", above, block(1, with(6, [1, 1])), 8);
    let job = [bytes(below), row(7, 0, 0)].concat();
    checks.refuses("R over B's last", &job, 9, (7, 21, 0));
}

/// 5 before 7 and 8, and behind 4.
fn lengths(checks: &mut Checks) {
    let bad = block(200, [[1, 1]; 8]);
    for length in 1..18 {
        let job = [b"I\x03\x01", &bad[..length]].concat();
        checks.refuses("B without its bytes", &job, 9, (5, 3, 0));
        checks.refuses("B before I", &bad[..length], 9, (4, 0, 0));
    }
    let job = [b"I\x03\x01", &bad[..]].concat();
    checks.refuses("B with its bytes", &job, 9, (7, 3, 0));
}

/// One row, wanted, is held by the term that comes; B's rows would stand elsewhere.
fn places(checks: &mut Checks) {
    let mut refuses = |name, between: &str, offset, written| {
        let head = bytes(&["49 04 01 52 00 01 00", between].concat());
        let job = [head, block(8, EMPTY), b"E".to_vec()].concat();
        checks.refuses(name, &job, LONGEST, (4, offset, written));
    };
    refuses("B behind T", "54 0f 00 01", 11, 0);
    refuses("B behind A", "41 0f 00 01", 11, 0);
    refuses("B behind T, gone", "54 0f 00 01 44 00", 13, 0);
    refuses("B behind A, gone", "41 0f 00 01 44 00", 13, 0);
    refuses("B behind P", "50", 8, 5);
    refuses("B behind P, gone", "50 44 00", 10, 5);
    refuses("B behind C", "54 0f 00 01 43", 12, 11);
    let job = [bytes("49 03 01 43"), block(0, EMPTY)].concat();
    checks.refuses("B behind C alone", &job, 20, (4, 4, 11));
    let job = [bytes("49 03 01 4c"), vec![0; 9], block(0, EMPTY)].concat();
    checks.refuses("B behind L alone", &job, 20, (4, 13, 3));
    let job = [bytes("49 03 01 45"), block(0, EMPTY)].concat();
    checks.refuses("B behind E", &job, 20, (13, 3, 0));
    let behind = [bytes("49 03 01"), block(0, EMPTY), b"E".to_vec()].concat();
    checks.refuses("I, B and no room for E", &behind, 0, (14, 21, 0));
}
