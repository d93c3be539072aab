//! Compares two outcomes, and prints what differs, also of a shrunk job.

use crate::engine;
use crate::expanded;
use crate::generate::Case;
use crate::reference::{self, Outcome};

pub fn matches(expected: &Outcome, seen: &engine::Seen) -> bool {
    expected.packed() == seen.packed
        && expected.buffer == seen.buffer
        && seen.guards_kept
        && seen.job_kept
}

pub fn hex(bytes: &[u8]) -> String {
    bytes.iter().map(|byte| format!("{byte:02x}")).collect()
}

/// True when engine and reference differ on this case.
fn differs(case: &Case, before: &[u8]) -> bool {
    let expected = reference::run(&case.job, before);
    expected.is_some_and(|expected| !matches(&expected, &engine::call(case, before)))
}

/// True when a job does not come out as the one with R for B.
fn breaks_blocks(case: &Case, before: &[u8]) -> bool {
    let expected = reference::run(&case.job, before);
    expected.is_some_and(|expected| expanded::check(case, before, &expected).is_err())
}

/// The outcome on which engine and reference agree, if they do.
fn agreed(case: &Case, before: &[u8]) -> Option<Outcome> {
    let expected = reference::run(&case.job, before)?;
    matches(&expected, &engine::call(case, before)).then_some(expected)
}

/// Takes bytes out of the job, large pieces first, as long as it is still wrong.
pub fn shrink(case: &Case, wrong: impl Fn(&Case) -> bool) -> Case {
    let mut small = case.clone();
    for piece in [4_096, 512, 64, 36, 10, 4, 1] {
        let mut at = 0;
        while at + piece <= small.job.len() {
            let mut tried = small.clone();
            tried.job.drain(at..at + piece);
            if wrong(&tried) {
                small = tried;
            } else {
                at += piece;
            }
        }
    }
    small
}

pub fn report(case: &Case, before: &[u8]) {
    describe("MISMATCH", case, before);
    if differs(case, before) {
        let small = shrink(case, |case| differs(case, before));
        describe("the same, shrunk", &small, before);
    } else {
        println!("the first call and the second one differ");
    }
}

/// K3's promise is broken: the job, the one with R for B, and both shrunk.
pub fn report_blocks(case: &Case, before: &[u8]) {
    let small = shrink(case, |case| breaks_blocks(case, before));
    for (title, case) in [("MISMATCH", case), ("the same, shrunk", &small)] {
        let by_rows = Case {
            job: expanded::expand(&case.job).job,
            ..case.clone()
        };
        describe(&format!("{title}, B"), case, before);
        describe(&format!("{title}, R for B"), &by_rows, before);
    }
}

/// An outcome on which both agree is not what document 000 or K6 to K11 say: the job, also shrunk.
pub fn report_wrong(case: &Case, before: &[u8], wrong: impl Fn(&Case, &Outcome) -> bool) {
    describe("MISMATCH", case, before);
    let still = |case: &Case| agreed(case, before).is_some_and(|outcome| wrong(case, &outcome));
    let small = shrink(case, still);
    describe("the same, shrunk", &small, before);
}

fn describe(title: &str, case: &Case, before: &[u8]) {
    let expected = reference::run(&case.job, before).expect("it was run before");
    let seen = engine::call(case, before);
    println!(
        "{title}: job of {} bytes, answer buffer of {}",
        case.job.len(),
        case.room
    );
    println!("  job       {}", hex(&case.job));
    println!("  behind it {}", hex(&case.behind));
    println!(
        "  reference {} {} {}",
        expected.number, expected.offset, expected.written
    );
    println!("            {}", hex(&expected.buffer[..expected.written]));
    let (number, offset, written) = (
        seen.packed >> 32,
        seen.packed >> 16 & 0xffff,
        seen.packed & 0xffff,
    );
    println!("  engine    {number} {offset} {written}");
    println!(
        "            {}",
        hex(&seen.buffer[..seen.buffer.len().min(written as usize)])
    );
    let first = (0..before.len()).find(|&i| expected.buffer[i] != seen.buffer[i]);
    first.into_iter().for_each(|i| {
        println!(
            "  first differing byte: {i}, reference {:02x}, engine {:02x}",
            expected.buffer[i], seen.buffer[i]
        );
    });
    println!(
        "  guards kept: {}, job kept: {}",
        seen.guards_kept, seen.job_kept
    );
}
