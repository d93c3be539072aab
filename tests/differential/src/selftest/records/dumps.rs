//! What is said of a dump: a right one passes, a wrong one is seen.

use crate::dump::{compare, Weighed, Weights};
use crate::reference::{self, Candidate, Range, Term};
use crate::selftest::{bytes, Checks, EXAMPLE};

pub fn run(checks: &mut Checks) {
    charged(checks);
    wrong_dumps(checks);
}

/// The weights of 0 to 8 literals. Each of them one off is seen, even where it is expected.
fn charged(checks: &mut Checks) {
    for (care, weight) in [
        (0x00, 1),
        (0x40, 1),
        (0x81, 3),
        (0x0b, 4),
        (0xf0, 5),
        (0x1f, 6),
        (0x7e, 7),
        (0xfd, 8),
        (0xff, 9),
    ] {
        let text = |weight: u64| {
            let line = format!("candidate 0 care {care:02x} value 00 outputs 01 weight {weight}");
            format!("place 4\nprices 1 1 0\n{line} low 2 high 7\n")
        };
        let as_expected = |weight| compare(&text(weight), &text(weight));
        let candidate = Candidate::Term(Term {
            care,
            value: 0,
            outputs: 1,
        });
        let due = Weights {
            prices: [1, 1, 0],
            candidates: vec![Weighed {
                candidate,
                weight,
                range: Range { low: 2, high: 7 },
            }],
        };
        let right = as_expected(weight) == Ok(due);
        checks.check(&format!("weight of care {care:02x}"), right);
        for wrong in [weight - 1, weight + 1] {
            let seen = as_expected(wrong).is_err();
            checks.check(&format!("not seen: care {care:02x}, weight {wrong}"), seen);
        }
    }
    let without = "prices 1 1 0\ncandidate 0 care 00 value 00 outputs 01 low 1 high 1\n";
    let seen = compare(without, without).is_err();
    checks.check("not seen: no weight", seen);
}

/// Dumps of the example that are not as expected.
fn wrong_dumps(checks: &mut Checks) {
    let (_, text) = reference::record(&bytes(EXAMPLE)).expect("small enough");
    checks.check("a right dump", compare(&text, &text).is_ok());
    for (name, wrong) in [
        ("another number", text.replace("number 0", "number 2")),
        ("another place", text.replace("place 5", "place 4")),
        ("another row", text.replace("on 02", "on 03")),
        ("a leading zero", text.replace("row 3", "row 03")),
        ("another value", text.replace("value 02", "value 00")),
        (
            "another number of a candidate",
            text.replace("candidate 5", "candidate 6"),
        ),
        (
            "a candidate left out",
            text.replace(
                "candidate 5 care 02 value 00 outputs 01 weight 1 low 1 high 1\n",
                "",
            ),
        ),
        ("a space more", text.replace("weight ", "weight  ")),
        ("no last newline", text.trim_end().to_string()),
        ("a line more", format!("{text}\n")),
        ("nothing", String::new()),
    ] {
        let seen = wrong != text && compare(&text, &wrong).is_err();
        checks.check(&format!("not seen: {name}"), seen);
    }
}
