//! All other commands than L are answered as the engine answers them from the record and the free part
//! they find. The engine gets the job with a page of no sets for each L, and a buffer that is shorter by
//! what the part's pages have more: all else must be the same bytes.

use super::{Call, Held, Kind};
use crate::engine::pattern;
use crate::format;
use crate::generate::{page, Case};
use crate::reference::{Layer, Outcome};
use crate::report::{hex, matches};
use crate::walk;

/// The bytes of a page that has no set.
const NO_SETS: usize = 3;

pub fn check(call: Call, case: &Case, part: &Outcome, held: &mut Held) -> Result<(), String> {
    let Quiet {
        commands,
        answers,
        left_out,
    } = quiet(&case.job, part).ok_or("an answer is cut")?;
    // An L that the part refuses by its own list is left out, whatever the engine would say.
    let at_page = case.job.get(part.offset) == Some(&b'L') && [20, 14].contains(&part.number);
    let rest = if at_page {
        &[]
    } else {
        &case.job[part.offset..]
    };
    let other = Case {
        job: [&commands[..], rest].concat(),
        behind: case.behind.clone(),
        room: case.room - left_out,
    };
    let before = pattern(other.room, 0x96);
    let mut buffer = before.clone();
    buffer[..answers.len()].copy_from_slice(&answers);
    let due = Outcome {
        number: if at_page { 2 } else { part.number },
        offset: part.offset,
        written: answers.len(),
        buffer,
    };
    if !matches(&due, &call(Layer::Engine, &other, &before)) {
        let job = hex(&other.job);
        return Err(format!(
            "the engine answers other commands otherwise: {job}"
        ));
    }
    held.count_if(Kind::Others, part.number == 0);
    held.count_if(Kind::OthersRefused, part.number != 0 && !at_page);
    Ok(())
}

/// The accepted commands with a page of no sets for each L, their answers, and how many bytes the
/// part's pages have more.
struct Quiet {
    commands: Vec<u8>,
    answers: Vec<u8>,
    left_out: usize,
}

fn quiet(job: &[u8], part: &Outcome) -> Option<Quiet> {
    let mut rest = &part.buffer[..part.written];
    let mut quiet = Quiet {
        commands: Vec::new(),
        answers: Vec::new(),
        left_out: 0,
    };
    for command in format::cut(&job[..part.offset])? {
        let (answer, behind) = rest.split_at_checked(walk::width(command[0], rest)?)?;
        rest = behind;
        if command[0] == b'L' {
            quiet.commands.extend(page(u64::MAX, 0));
            // Only 2^64 - 1 could stand there, which has too many members and then stands alone.
            quiet.answers.extend([0x6c, 0, 0]);
            quiet.left_out += answer.len() - NO_SETS;
        } else {
            quiet.commands.extend(command);
            quiet.answers.extend(answer);
        }
    }
    rest.is_empty().then_some(quiet)
}
