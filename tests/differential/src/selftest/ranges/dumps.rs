//! Records with ranges, written out by hand, and wrong ones that are seen.

use super::g;
use crate::dump::compare;
use crate::generate::{come, draft, go, prices, ranged_page, row, term};
use crate::reference;
use crate::selftest::Checks;

/// One input and one output at 7, 5 and 3: terms of no literal and of one cost 10.
const HEAD: &str = "inputs 1 outputs 1
prices 7 5 3
row 0 on 01 dc 00
row 1 on 00 dc 01
";
const FIRST: &str = "care 01 value 00 outputs 01 weight 10 low ";
const SECOND: &str = "care 00 value 00 outputs 01 weight 10 low ";

/// I, W, two rows and two terms: 23 bytes.
fn job(behind: &[Vec<u8>]) -> Vec<u8> {
    let rows = vec![row(0, 1, 0), row(1, 0, 1)];
    let list = vec![term(1, 0, 1), term(0, 0, 1)];
    let parts = [vec![prices([7, 5, 3])], rows, list, behind.to_vec()];
    let mut job = draft(1, 1, parts);
    job.commands.pop();
    job.job()
}

fn text(numbers: &str, place: usize, candidates: &[String]) -> String {
    let lines = candidates.iter().enumerate();
    let lines: String = lines.map(|(i, c)| format!("candidate {i} {c}\n")).collect();
    format!("number {numbers}\nplace {place}\n{HEAD}{lines}")
}

fn first(low: u16, high: u16) -> String {
    format!("{FIRST}{low} high {high}")
}

fn second(low: u16, high: u16) -> String {
    format!("{SECOND}{low} high {high}")
}

/// A range that the weight is in, and one that it is not in.
fn whole() -> String {
    text(
        "2 offset 35 written 0",
        5,
        &[first(0, 850), second(256, 513)],
    )
}

pub fn run(checks: &mut Checks) {
    right_ones(checks);
    wrong_ones(checks);
}

fn right_ones(checks: &mut Checks) {
    let mut leaves = |name: &str, behind: &[Vec<u8>], due: String| {
        let (_, seen) = reference::record(&job(behind)).expect("small enough");
        checks.check(&format!("record, {name}"), seen == due);
    };
    let own = [first(10, 10), second(10, 10)];
    leaves("no G", &[], text("2 offset 23 written 0", 4, &own));
    let both = [g(0, 0, 850), g(1, 256, 513)];
    leaves("two G", &both, whole());
    let other = [first(10, 10), second(3, 3)];
    let due = text("2 offset 29 written 0", 5, &other);
    leaves("one G", &[g(1, 3, 3)], due);
    let twice = [g(1, 3, 3), g(1, 4, 9)];
    let due = text("2 offset 35 written 0", 5, &[first(10, 10), second(4, 9)]);
    leaves("G twice", &twice, due);
    let gone = [g(0, 0, 850), g(1, 256, 513), go(0)];
    let due = text("2 offset 37 written 0", 5, &[second(256, 513)]);
    leaves("D below a range", &gone, due);
    let come_behind = [g(0, 1, 2), come(0, 0, 1)];
    let due = text(
        "2 offset 33 written 0",
        5,
        &[first(1, 2), second(10, 10), second(10, 10)],
    );
    leaves("A behind G", &come_behind, due);
    let again = [g(1, 1, 2), go(1), come(0, 0, 1)];
    let due = text("2 offset 35 written 0", 5, &own);
    leaves("G, D and A", &again, due);
    // V leaves all but the place.
    let due = text("2 offset 33 written 19", 5, &own);
    leaves("V", &[ranged_page(0, 9)], due);
    // Refused, both leave what stands, the place too.
    for (name, last, number) in [
        ("15", g(2, 0, 0), 15),
        ("19", g(0, 2, 1), 19),
        ("19 by 851", g(0, 0, 851), 19),
        ("5", b"G\x00\x00".to_vec(), 5),
        ("5 at V", b"V\x00".to_vec(), 5),
    ] {
        let due = text(&format!("{number} offset 23 written 0"), 4, &own);
        leaves(&format!("{name} at G"), &[last.clone()], due);
        let numbers = format!("{number} offset 29 written 0");
        let due = text(&numbers, 5, &[first(5, 6), second(10, 10)]);
        leaves(&format!("{name} behind G"), &[g(0, 5, 6), last], due);
    }
    let due = text("4 offset 29 written 0", 5, &[first(5, 6), second(10, 10)]);
    leaves("T behind G", &[g(0, 5, 6), term(0, 0, 1)], due);
}

/// Wrong dumps of the same record. The second ones are even expected: there the text alone tells that
/// it is wrong.
fn wrong_ones(checks: &mut Checks) {
    let whole = whole();
    let by = |from: &str, to: &str| whole.replace(from, to);
    let mut wrong = |name: &str, expected: &str, text: &str| {
        let seen = text != whole && compare(expected, text).is_err();
        checks.check(&format!("not seen: {name}"), seen);
    };
    for (name, text) in [
        ("the weight as low end", by("low 256", "low 10")),
        ("the weight as high end", by("high 513", "high 850")),
        ("a low end exchanged", by("low 256", "low 1")),
        ("place of a term", by("place 5", "place 4")),
        ("ranges exchanged", {
            let moved = by("low 256 high 513", "low 0 high 849");
            moved.replace("low 0 high 850", "low 256 high 513")
        }),
    ] {
        wrong(name, &whole, &text);
    }
    for (name, text) in [
        ("no range", by(" low 256 high 513", "")),
        ("no high end", by(" high 513", "")),
        ("high first", by("low 256 high 513", "high 513 low 256")),
        ("low above high", by("low 256", "low 514")),
        ("851", by("high 850", "high 851")),
        (
            "weight by the range",
            by("weight 10 low 256", "weight 256 low 256"),
        ),
        (
            "a range before the weight",
            by("weight 10 low 256 high 513", "low 256 high 513 weight 10"),
        ),
        ("a word more", by("high 513", "high 513 3")),
    ] {
        wrong(name, &text, &text);
    }
    checks.check("a right dump with G", compare(&whole, &whole).is_ok());
}
