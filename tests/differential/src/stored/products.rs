//! N over the table and the candidates of a stored job.

use super::Problem;
use crate::engine;
use crate::generate::Case;
use crate::products;
use crate::reference::{self, LONGEST};
use crate::report::{hex, matches};

/// Over how many tables N is answered and refused with 17.
#[derive(Default)]
pub struct Multiplied {
    pub answered: usize,
    pub refused: usize,
}

/// The outcome is the reference's, and where N is answered its sets are the joined pages of L.
pub fn multiplied(problem: &Problem, counts: &mut Multiplied) -> Result<(), String> {
    let case = Case {
        job: [&problem.head, &b"NE"[..]].concat(),
        behind: Vec::new(),
        room: LONGEST,
    };
    let before = engine::pattern(case.room, 0x6e);
    let expected = reference::run(&case.job, &before).ok_or("no reference of N")?;
    if !matches(&expected, &engine::call(&case, &before)) {
        let job = hex(&case.job);
        return Err(format!("N is not as the reference has it: {job}"));
    }
    products::check(&case, &expected)?;
    match expected.number {
        0 => counts.answered += 1,
        _ => counts.refused += 1,
    }
    Ok(())
}
