//! Records with blocks, written out by hand, and wrong ones that are seen.

use super::f;
use crate::dump::{compare, Weighed};
use crate::generate::{come, draft, go, prices, row, term};
use crate::reference::{self, Block, Candidate, Range};
use crate::selftest::Checks;

/// Three inputs and two outputs at 7, 5 and 3: a term of three literals and two outputs, and blocks.
const HEAD: &str = "inputs 3 outputs 2
prices 7 5 3
row 0 on 01 dc 02
row 7 on 02 dc 01
";

const FIRST: &str = "block outputs 03 vertices \
    8100000000000000000000000000000000000000000000000000000000000000 weight 850 low 850 high 850\n";
const EMPTY: &str = "block outputs 02 vertices \
    0000000000000000000000000000000000000000000000000000000000000000 weight 0 low 0 high 0\n";
const TERM: &str = "care 07 value 07 outputs 03 weight 28 low 28 high 28\n";

pub fn run(checks: &mut Checks) {
    right_ones(checks);
    eight_inputs(checks);
    read_back(checks);
    wrong_ones(checks);
    wrong_by_themselves(checks);
}

/// The first block, a term by A, an empty block.
fn job(behind: &[Vec<u8>]) -> Vec<u8> {
    let rows = vec![row(0, 1, 2), row(7, 2, 1)];
    let list = vec![f(3, &[0x81], 850), come(7, 7, 3), f(2, &[], 0)];
    let parts = [vec![prices([7, 5, 3])], rows, list, behind.to_vec()];
    let mut job = draft(3, 2, parts);
    job.commands.pop();
    job.job()
}

/// The record behind these, with its candidates. I, W, the rows and the candidates are 91 bytes.
fn text(numbers: &str, place: usize, candidates: &[&str]) -> String {
    let lines = candidates.iter().enumerate();
    let lines: String = lines.map(|(i, c)| format!("candidate {i} {c}")).collect();
    format!("{numbers}\nplace {place}\n{HEAD}{lines}")
}

fn whole() -> String {
    text("number 2 offset 91 written 0", 4, &[FIRST, TERM, EMPTY])
}

fn right_ones(checks: &mut Checks) {
    let mut leaves = |name: &str, behind: &[Vec<u8>], due: String| {
        let (_, seen) = reference::record(&job(behind)).expect("small enough");
        checks.check(&format!("record, {name}"), seen == due);
    };
    leaves("blocks", &[], whole());
    let behind = "number 2 offset 93 written 0";
    let candidates: [&[&str]; 3] = [&[TERM, EMPTY], &[FIRST, EMPTY], &[FIRST, TERM]];
    for (number, left) in (0..3).zip(candidates) {
        let name = format!("D of {number}");
        leaves(&name, &[go(number)], text(behind, 4, left));
    }
    // Refused, it leaves what stands.
    for (name, last, number) in [
        ("18", f(3, &[0x81], 851), 18),
        ("10", f(3, &[0x83], 850), 10),
        ("R", row(1, 0, 1), 4),
        ("P", vec![b'P'], 4),
    ] {
        let numbers = format!("number {number} offset 91 written 0");
        let due = text(&numbers, 4, &[FIRST, TERM, EMPTY]);
        leaves(&format!("{name} behind F"), &[last], due);
    }
    // The block goes, and its place stays; a query has the next one.
    let gone = [go(0), go(0), go(0)];
    leaves(
        "all gone",
        &gone,
        text("number 2 offset 97 written 0", 4, &[]),
    );
    let numbers = "number 2 offset 92 written 11";
    let due = text(numbers, 5, &[FIRST, TERM, EMPTY]);
    leaves("C over blocks", &[vec![b'C']], due);
}

/// Each byte of the vertices in its place.
fn eight_inputs(checks: &mut Checks) {
    let own: Vec<u8> = (1..=32).collect();
    let rows = (0..=255).map(|v| row(v, 0, 128)).collect();
    let list = vec![f(128, &own, 256), term(0, 0, 128)];
    let (_, seen) = reference::record(&draft(8, 8, [rows, list]).job()).expect("small enough");
    let due = "candidate 0 block outputs 80 vertices \
        0102030405060708090a0b0c0d0e0f101112131415161718191a1b1c1d1e1f20 weight 256 low 256 high 256\n\
        candidate 1 care 00 value 00 outputs 80 weight 1 low 1 high 1\n";
    checks.check("record, 32 bytes of vertices", seen.ends_with(due));
}

/// What is read of the text.
fn read_back(checks: &mut Checks) {
    let text = whole();
    let weights = compare(&text, &text).map(|weights| weights.candidates);
    let blocks = [Block::new(3, [0, 7], 850), Block::new(2, [], 0)];
    let due = |b: Block| Weighed {
        candidate: Candidate::Block(b),
        weight: b.weight.into(),
        range: Range::at(b.weight.into()),
    };
    let right = |list: Vec<Weighed>| [&list[0], &list[2]] == [&due(blocks[0]), &due(blocks[1])];
    checks.check("blocks of a dump", weights.is_ok_and(right));
}

/// The record with other words.
fn by(from: &str, to: &str) -> String {
    whole().replace(from, to)
}

/// Dumps that are not as expected.
fn wrong_ones(checks: &mut Checks) {
    let whole = whole();
    for (name, text) in [
        (
            "a term price less for a block",
            by("weight 850", "weight 843"),
        ),
        ("connections of a block", by("weight 0 ", "weight 3 ")),
        ("a term's weight for a block", by("weight 0 ", "weight 10 ")),
        ("the low byte of a weight", by("weight 850", "weight 82")),
        ("another vertex", by("8100", "0100")),
        ("bytes the other way round", by("8100", "0081")),
        ("other outputs", by("block outputs 03", "block outputs 01")),
        ("a term for a block", by(EMPTY, TERM)),
        ("a block left out", by(&format!("candidate 0 {FIRST}"), "")),
        ("place of a row", by("place 4", "place 3")),
        ("capital letters", by("block", "BLOCK")),
    ] {
        let seen = text != whole && compare(&whole, &text).is_err();
        checks.check(&format!("not seen: {name}"), seen);
    }
    checks.check("a right dump with blocks", compare(&whole, &whole).is_ok());
}

/// Dumps of which the text alone tells that they are wrong, even where they are expected.
fn wrong_by_themselves(checks: &mut Checks) {
    for (name, text) in [
        ("a weight of 851", by("weight 850", "weight 851")),
        ("a byte of vertices less", by("8100", "81")),
        ("a byte of vertices more", by("8100", "810000")),
        ("no weight of a block", by(" weight 850", "")),
        ("no outputs of a block", by("block outputs 03", "block")),
        ("a term's weight", by("weight 28", "weight 13")),
    ] {
        let seen = text != whole() && compare(&text, &text).is_err();
        checks.check(&format!("not seen: {name}"), seen);
    }
}
