//! What K11 leaves as it was, asked of the engine: without its G and V commands a job answers P, L, C, N
//! and E with the same bytes.

use crate::engine::{self, Seen};
use crate::format;
use crate::generate::Case;
use crate::reference::{self, Outcome};
use crate::report::{hex, matches};
use crate::walk;

/// A job with G or V that was held to the one without.
#[derive(Default)]
pub struct Held {
    /// The G commands that were left out, and the L, C and N commands that are answered behind one.
    pub ranges: usize,
    pub pages: usize,
    pub cheapest: usize,
    pub products: usize,
    pub number: u64,
}

/// Holds the engine to it where a G or V is accepted. The engine's outcome of the job itself is the
/// expected one by now.
pub fn check(case: &Case, before: &[u8], expected: &Outcome) -> Result<Option<Held>, String> {
    check_of(engine::call, case, before, expected)
}

/// The same of another engine.
pub fn check_of(
    call: impl Fn(&Case, &[u8]) -> Seen,
    case: &Case,
    before: &[u8],
    expected: &Outcome,
) -> Result<Option<Held>, String> {
    if expected.number == 1 || !format::has(&case.job[..expected.offset], b"GV") {
        return Ok(None);
    }
    let (kept, held) = kept(&case.job, expected).ok_or("an answer is cut")?;
    // For the place of the others G and V count as an L, so a 4 may be none any more.
    let at = case.job.get(expected.offset);
    let ends = expected.number == 4 || at.is_some_and(|byte| b"GV".contains(byte));
    let rest = &case.job[expected.offset..];
    let other = Case {
        job: [&kept.commands[..], if ends { &[] } else { rest }].concat(),
        behind: case.behind.clone(),
        room: before.len() - kept.left_out,
    };
    let before = &before[kept.left_out..];
    let mut buffer = before.to_vec();
    buffer[..kept.answers.len()].copy_from_slice(&kept.answers);
    let due = Outcome {
        number: if ends { 2 } else { expected.number },
        offset: kept.commands.len(),
        written: kept.answers.len(),
        buffer,
    };
    let wrong = |who: &str| format!("{who}: other answers without G and V: {}", hex(&other.job));
    if reference::run(&other.job, before).as_ref() != Some(&due) {
        return Err(wrong("reference"));
    }
    if !matches(&due, &call(&other, before)) {
        return Err(wrong("engine"));
    }
    Ok(Some(held))
}

/// The accepted commands but G and V, their answers, and how many answer bytes V has.
struct Kept {
    commands: Vec<u8>,
    answers: Vec<u8>,
    left_out: usize,
}

fn kept(job: &[u8], outcome: &Outcome) -> Option<(Kept, Held)> {
    let mut rest = &outcome.buffer[..outcome.written];
    let mut kept = Kept {
        commands: Vec::new(),
        answers: Vec::new(),
        left_out: 0,
    };
    let mut held = Held {
        number: outcome.number,
        ..Held::default()
    };
    for command in format::cut(&job[..outcome.offset])? {
        let (answer, behind) = rest.split_at_checked(walk::width(command[0], rest)?)?;
        rest = behind;
        match command[0] {
            b'G' => held.ranges += 1,
            b'V' => kept.left_out += answer.len(),
            _ => {
                kept.commands.extend(command);
                kept.answers.extend(answer);
            }
        }
        let behind_range = usize::from(held.ranges > 0);
        match command[0] {
            b'L' => held.pages += behind_range,
            b'C' => held.cheapest += behind_range,
            b'N' => held.products += behind_range,
            _ => {}
        }
    }
    rest.is_empty().then_some((kept, held))
}
