//! Records with W, written out by hand, and wrong ones that are seen.

use crate::dump::compare;
use crate::generate::{draft, prices, row};
use crate::reference;
use crate::selftest::{bytes, terms, Checks};

/// Two inputs and two outputs at 7, 5 and 3: terms of 0, 1 and 2 literals with one output and two.
const WEIGHED: &str = "number 2 offset 35 written 0
place 4
inputs 2 outputs 2
prices 7 5 3
row 0 on 03 dc 00
row 1 on 00 dc 03
row 2 on 00 dc 03
row 3 on 00 dc 01
candidate 0 care 00 value 00 outputs 01 weight 10 low 10 high 10
candidate 1 care 01 value 00 outputs 03 weight 13 low 13 high 13
candidate 2 care 03 value 00 outputs 03 weight 23 low 23 high 23
";

pub fn run(checks: &mut Checks) {
    right_ones(checks);
    wrong_ones(checks);
}

fn weighed() -> Vec<u8> {
    let rows = vec![row(0, 3, 0), row(1, 0, 3), row(2, 0, 3), row(3, 0, 1)];
    let by_term = terms(&[[0, 0, 1], [1, 0, 3], [3, 0, 3]]);
    let mut job = draft(2, 2, [vec![prices([7, 5, 3])], rows, by_term]);
    job.commands.pop();
    job.job()
}

/// What stands behind I with one input and one output, and what the record shows: number, offset,
/// written and place, and whether the prices are W's or the usual ones.
const SHORT: [(&str, [u64; 4], bool); 8] = [
    ("57 32 00 09", [2, 7, 0, 2], true),
    ("57 32 00 09 45", [0, 8, 1, 2], true),
    ("57 32 00 09 57 01 01 00", [4, 7, 0, 2], true),
    ("57 32 00 09 44 00", [15, 7, 0, 2], true),
    ("57 32 00 09 50", [2, 8, 2, 5], true),
    ("57 01 01 00", [2, 7, 0, 2], false),
    ("57 00 00 33", [16, 3, 0, 1], false),
    ("57 00 00", [5, 3, 0, 1], false),
];

fn right_ones(checks: &mut Checks) {
    let mut leaves = |name: &str, job: &[u8], text: &str| {
        let (_, seen) = reference::record(job).expect("small enough");
        checks.check(&format!("record, {name}"), seen == text);
    };
    leaves("weights by W", &weighed(), WEIGHED);
    let text = |[number, offset, written, place]: [u64; 4], own: bool| {
        let prices = if own { "50 0 9" } else { "1 1 0" };
        format!(
            "number {number} offset {offset} written {written}\nplace {place}\n\
             inputs 1 outputs 1\nprices {prices}\n"
        )
    };
    for (hex, numbers, own) in SHORT {
        let job = [b"I\x01\x01", &bytes(hex)[..]].concat();
        leaves(hex, &job, &text(numbers, own));
    }
    let job = bytes("49 01 01 57 32 00 09 52 00 00 01");
    let with_row = text([2, 11, 0, 3], true) + "row 0 on 00 dc 01\n";
    leaves("W and a row", &job, &with_row);
}

/// The same record with other weights.
fn by_weights(list: [u64; 3]) -> String {
    let mut text = WEIGHED.to_string();
    for (own, other) in [10, 13, 23].iter().zip(list) {
        text = text.replace(&format!("weight {own} "), &format!("weight {other} "));
    }
    text
}

/// W's line with other words, or none.
fn by_prices(line: &str) -> String {
    WEIGHED.replace("prices 7 5 3\n", line)
}

/// Wrong dumps of the same record. The second ones are even expected: there the text alone tells
/// that it is wrong.
fn wrong_ones(checks: &mut Checks) {
    let mut wrong = |name: &str, expected: &str, text: &str| {
        let seen = text != WEIGHED && compare(expected, text).is_err();
        checks.check(&format!("not seen: {name}"), seen);
    };
    for (name, text) in [
        ("place of a row", WEIGHED.replace("place 4", "place 3")),
        ("place of W", WEIGHED.replace("place 4", "place 2")),
        ("a number of prices", by_prices("prices 7 5 03\n")),
        ("prices before the sizes", prices_first()),
    ] {
        wrong(name, WEIGHED, &text);
    }
    for (name, text) in [
        ("weights by usual prices", by_weights([1, 1, 3])),
        ("one literal charged", by_weights([10, 18, 23])),
        ("one connection a term", by_weights([10, 10, 20])),
        ("no connections", by_weights([7, 7, 17])),
        ("no literals", by_weights([10, 13, 13])),
        ("other prices", by_prices("prices 7 5 4\n")),
        ("usual prices", by_prices("prices 1 1 0\n")),
        ("no prices", by_prices("")),
        ("two prices", by_prices("prices 7 5\n")),
        ("prices twice", by_prices("prices 7 5 3\nprices 7 5 3\n")),
        ("a price of 51", by_prices("prices 51 5 3\n")),
    ] {
        wrong(name, &text, &text);
    }
    checks.check("a right dump with W", compare(WEIGHED, WEIGHED).is_ok());
}

fn prices_first() -> String {
    let (sizes, own) = ("inputs 2 outputs 2\n", "prices 7 5 3\n");
    WEIGHED.replace(&[sizes, own].concat(), &[own, sizes].concat())
}
