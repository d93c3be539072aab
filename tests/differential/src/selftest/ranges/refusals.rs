//! What G and V meet, and where they and the others may stand.

use super::{g, listed, terms, Checks, TERMS};
use crate::format::COMMANDS;
use crate::generate::{come, draft, go, ranged_page, ready, row, term};
use crate::reference::{Block, LONGEST};
use crate::selftest::{both_wanted, bytes, example_rows};

pub fn run(checks: &mut Checks) {
    limits(checks);
    orders(checks);
    many(checks);
    pages(checks);
    behind(checks);
    before(checks);
}

/// I, the rows and the six terms of the example: 43 bytes.
fn head() -> Vec<u8> {
    let mut job = draft(2, 2, [example_rows(), terms(&TERMS)]);
    job.commands.pop();
    job.job()
}

/// A job of the head, a G and E: 0 for accepted.
fn meets(checks: &mut Checks, name: &str, range: &[u8], number: u64) {
    let job = [&head()[..], range, b"E"].concat();
    if number == 0 {
        checks.accepts(name, &job, &[0x65]);
    } else {
        checks.refuses(name, &job, LONGEST, (number, 43, 0));
    }
}

fn limits(checks: &mut Checks) {
    for (name, range, number) in [
        ("G of the first", g(0, 1, 2), 0),
        ("G of the last", g(5, 1, 2), 0),
        ("G of the count", g(6, 1, 2), 15),
        ("G of 64", g(64, 1, 2), 15),
        ("G of 255", g(255, 1, 2), 15),
        ("G of 0 to 0", g(3, 0, 0), 0),
        ("G of 0 to 850", g(3, 0, 850), 0),
        ("G of 850 to 850", g(3, 850, 850), 0),
        ("G of 1 to 0", g(3, 1, 0), 19),
        ("G of 850 to 849", g(3, 850, 849), 19),
        ("G of 0 to 851", g(3, 0, 851), 19),
        ("G of 851 to 851", g(3, 851, 851), 19),
        ("G of 851 to 850", g(3, 851, 850), 19),
        // The high byte of one is above that of the other, and the low byte below.
        ("G of 255 to 256", g(3, 255, 256), 0),
        ("G of 256 to 255", g(3, 256, 255), 19),
        ("G of 511 to 768", g(3, 511, 768), 0),
        // The low byte is 0, and 850 with its bytes exchanged.
        ("G of 0 to 1,024", g(3, 0, 1_024), 19),
        ("G of 0 to 20,995", g(3, 0, 0x5203), 19),
        ("G of 0 to 65,535", g(3, 0, 65_535), 19),
        // The weight is 1: it need not be among them.
        ("G above the weight", g(3, 2, 3), 0),
        ("G below the weight", g(3, 0, 0), 0),
    ] {
        meets(checks, name, &range, number);
    }
}

/// Where several numbers apply.
fn orders(checks: &mut Checks) {
    meets(checks, "15 before 19, low above high", &g(6, 2, 1), 15);
    meets(checks, "15 before 19, high above 850", &g(6, 0, 851), 15);
    let bad = g(6, 900, 851);
    for length in 1..6 {
        let job = [&head()[..], &bad[..length]].concat();
        checks.refuses("5 before 15", &job, 9, (5, 43, 0));
        let standing = [&head()[..], &g(0, 900, 851)[..length]].concat();
        checks.refuses("5 before 19", &standing, 9, (5, 43, 0));
        checks.refuses("4 before 5 at G", &bad[..length], 9, (4, 0, 0));
    }
    checks.refuses("4 before 15", &bad, 9, (4, 0, 0));
    let alone = [&bytes("49 01 01")[..], &g(0, 0, 0)].concat();
    checks.refuses("15 where none stands", &alone, 9, (15, 3, 0));
    // The first goes: the last number stands no more.
    let gone = [head(), go(0), g(5, 1, 2)].concat();
    checks.refuses("15 behind D", &gone, 9, (15, 45, 0));
}

/// 64 candidates: 63 is the last number.
fn many(checks: &mut Checks) {
    let rows = both_wanted().concat();
    let full = [bytes("49 01 01"), rows, term(0, 0, 1).repeat(64)].concat();
    let at = 3 + 8 + 256;
    let job = [full.clone(), g(63, 0, 0), ranged_page(0, 9), b"E".to_vec()].concat();
    let due = [listed(&[1 << 63], 0), vec![0x65]].concat();
    checks.accepts("G of 63 of 64", &job, &due);
    let job = [full.clone(), g(64, 0, 0)].concat();
    checks.refuses("G of 64 of 64", &job, 9, (15, at, 0));
    let other = [full, g(63, 2, 9), ranged_page(1 << 62, 9), b"E".to_vec()].concat();
    let due = [listed(&[1 << 62], 0), vec![0x65]].concat();
    checks.accepts("V without 63 of 64", &other, &due);
}

/// V meets 12 as L does, then 14, and is never cut to the buffer.
fn pages(checks: &mut Checks) {
    let v = |start, count| ranged_page(start, count);
    for room in [0, 2, 3, 99] {
        let half = [bytes("49 01 01 52 00 01 00"), v(0, 9)].concat();
        checks.refuses("V over a cell held by none", &half, room, (12, 7, 0));
    }
    let half = draft(
        1,
        1,
        [
            both_wanted(),
            terms(&[[1, 0, 1]]),
            vec![g(0, 0, 0), v(9, 0)],
        ],
    );
    checks.refuses("V behind G over half", &half.job(), 0, (12, 21, 0));
    for (command, need) in [(v(0, 9), 11), (v(0, 0), 3), (v(42, 9), 3)] {
        for room in 0..need {
            let job = [&head()[..], &command, b"E"].concat();
            checks.refuses("no room for V", &job, room, (14, 43, 0));
        }
        let job = [&head()[..], &command, b"E"].concat();
        checks.refuses("no room behind V", &job, need, (14, 53, need));
    }
    for length in 1..10 {
        let job = [&head()[..], &v(0, 9)[..length]].concat();
        checks.refuses("V cut", &job, 99, (5, 43, 0));
        checks.refuses("4 before 5 at V", &v(0, 9)[..length], 99, (4, 0, 0));
        let unheld = [&bytes("49 01 01 52 00 01 00")[..], &v(0, 9)[..length]].concat();
        checks.refuses("5 before 12 at V", &unheld, 99, (5, 7, 0));
    }
}

/// A good command for the example with candidates and a query before it, where it may stand at all.
fn good(byte: u8) -> Vec<u8> {
    match byte {
        b'I' => bytes("49 02 02"),
        b'W' => bytes("57 01 01 00"),
        b'R' => row(0, 0, 0),
        b'T' => term(1, 0, 1),
        b'F' => ready(&Block::new(1, [2], 5)),
        b'A' => come(1, 0, 1),
        b'D' => go(1),
        b'G' => g(2, 3, 4),
        byte => {
            let known = COMMANDS.iter().find(|command| command.byte == byte);
            known.expect("a command").sample()
        }
    }
}

/// Each command behind G, behind V and behind both: as behind an L.
fn behind(checks: &mut Checks) {
    let v = || ranged_page(0, 9);
    let page = listed(&[41], 0).len();
    for (own, written) in [
        (g(1, 3, 3), 0),
        (v(), page),
        ([g(1, 3, 3), v()].concat(), page),
        ([v(), g(1, 3, 3)].concat(), page),
        // Its candidate has gone.
        ([g(5, 1, 1), go(5), go(4), go(3)].concat(), 0),
    ] {
        let at = 43 + own.len();
        for byte in *b"IWRBTFP" {
            let job = [head(), own.clone(), good(byte), b"E".to_vec()].concat();
            let name = format!("{} behind G or V", char::from(byte));
            checks.refuses(&name, &job, LONGEST, (4, at, written));
        }
        for byte in *b"ADGE" {
            let mut job = [head(), own.clone(), good(byte)].concat();
            if byte != b'E' {
                job.push(b'E');
            }
            // 41 is listed, as the second is at its own weight; E's answer is behind it.
            let mut due = listed(&[41], 0);
            due.truncate(written);
            due.push(0x65);
            let name = format!("{} behind G or V", char::from(byte));
            checks.accepts(&name, &job, &due);
        }
    }
    for own in [g(1, 3, 3), v()] {
        let written = if own[0] == b'V' { page } else { 0 };
        for byte in *b"LCNV" {
            let job = [head(), own.clone(), good(byte)].concat();
            let answer = match byte {
                b'L' => 3 + 8,
                b'C' => 11,
                b'N' => 3 + 6 * 8,
                _ => 3 + 8,
            };
            let name = format!("{} behind G or V", char::from(byte));
            let at = job.len();
            checks.refuses(&name, &job, LONGEST, (2, at, written + answer));
        }
    }
    // With nothing wanted V stands without candidates: no row, prices or candidates come any more.
    for byte in *b"IWRBTFP" {
        let job = [bytes("49 02 02"), v(), good(byte)].concat();
        let name = format!("{} behind V alone", char::from(byte));
        checks.refuses(&name, &job, LONGEST, (4, 13, 11));
    }
}

/// G and V behind each command.
fn before(checks: &mut Checks) {
    let rows = || example_rows().concat();
    let own = || [head()[19..].to_vec()].concat();
    let sizes = || bytes("49 02 02");
    for (name, job) in [
        ("T", head()),
        ("W", [sizes(), good(b'W'), rows(), own()].concat()),
        ("F", [head(), good(b'F')].concat()),
        ("A", [head(), good(b'A')].concat()),
        ("D", [head(), go(5)].concat()),
        ("G", [head(), good(b'G')].concat()),
        ("P", [sizes(), rows(), b"P".to_vec()].concat()),
        ("L", [head(), good(b'L')].concat()),
        ("C", [head(), good(b'C')].concat()),
        ("N", [head(), good(b'N')].concat()),
        ("V", [head(), good(b'V')].concat()),
    ] {
        let before = crate::reference::run(&job, &[0; LONGEST]).expect("small");
        checks.check(&format!("{name} by itself"), before.number == 2);
        let with_range = [job.clone(), g(0, 1, 1)].concat();
        let at = (2, with_range.len(), before.written);
        checks.refuses(&format!("G behind {name}"), &with_range, LONGEST, at);
        let with_page = [job, ranged_page(u64::MAX, 1)].concat();
        let at = (2, with_page.len(), before.written + 3);
        checks.refuses(&format!("V behind {name}"), &with_page, LONGEST, at);
    }
    // Before I and behind E.
    checks.refuses("G first", &g(0, 0, 0), 9, (4, 0, 0));
    checks.refuses("V first", &ranged_page(0, 0), 9, (4, 0, 0));
    for last in [g(0, 0, 0), ranged_page(0, 0)] {
        let job = [head(), b"E".to_vec(), last].concat();
        checks.refuses("behind E", &job, 99, (13, 43, 0));
    }
    // Right behind I, R and B.
    let empty = listed(&[0], 0);
    for head in [
        "49 02 02",
        "49 02 02 52 00 00 01",
        "49 03 01 42 00 00 00 00 00 00 00 00 00 00 00 00 00 00 00 00 00",
    ] {
        let job = [bytes(head), ranged_page(0, 9), b"E".to_vec()].concat();
        checks.accepts("V behind I, R or B", &job, &[&empty[..], &[0x65]].concat());
        let job = [bytes(head), g(0, 0, 0)].concat();
        checks.refuses("G behind I, R or B", &job, 9, (15, bytes(head).len(), 0));
    }
}
