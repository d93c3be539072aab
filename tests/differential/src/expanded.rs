//! What K3 promises of a job with B, asked of the engine: it comes out as the job that has eight R
//! commands for each B, and a refusal of one of these is B's.

use crate::engine;
use crate::format::{self, BLOCK};
use crate::generate::{row, Case};
use crate::reference::{self, Outcome, LONGEST};
use crate::report::{hex, matches};

/// A job with R commands for each whole B that a walk by commands comes to.
pub struct Expanded {
    pub job: Vec<u8>,
    /// For each command there its offset and that of the command from which it came; last, where
    /// the walk ended, and the lengths.
    offsets: Vec<(usize, usize)>,
    /// Where the first B stood.
    pub first: Option<usize>,
}

/// A job that was held to the one with R commands.
pub struct Held {
    /// 0 to 7: the row of a B at which both are refused.
    pub row: Option<usize>,
}

pub fn expand(job: &[u8]) -> Expanded {
    let mut expanded = Expanded {
        job: Vec::new(),
        offsets: Vec::new(),
        first: None,
    };
    let mut at = 0;
    while let Some(command) = before_end(&job[at..]) {
        if command[0] == b'B' {
            rows_of(command)
                .iter()
                .for_each(|row| expanded.put(row, at));
            expanded.first = expanded.first.or(Some(at));
        } else {
            expanded.put(command, at);
        }
        at += command.len();
    }
    expanded.put(&job[at..], at);
    expanded.put(&[], job.len());
    expanded
}

/// The next command of a walk, which E, a byte that is no command and missing operands end.
fn before_end(rest: &[u8]) -> Option<&[u8]> {
    let command = format::find(*rest.first()?)?;
    let whole = rest.get(..1 + command.width())?;
    (command.byte != b'E').then_some(whole)
}

/// R can't name a vertex above 255. There 255 stands for it: with 8 inputs it has a row by then, by
/// this B, so that it is refused with 7 as well; with fewer an earlier row was.
fn rows_of(block: &[u8]) -> Vec<Vec<u8>> {
    let by_row = |i: usize| {
        let v = block[1].saturating_add(i as u8);
        row(v, block[2 + 2 * i], block[3 + 2 * i])
    };
    (0..BLOCK).map(by_row).collect()
}

impl Expanded {
    fn put(&mut self, bytes: &[u8], from: usize) {
        self.offsets.push((self.job.len(), from));
        self.job.extend(bytes);
    }

    /// The outcome of this job as one of the job from which it came; None when the offset is not
    /// that of a command.
    fn back(&self, outcome: &Outcome) -> Option<Outcome> {
        let at = |pair: &&(usize, usize)| pair.0 == outcome.offset;
        let &(_, offset) = self.offsets.iter().find(at)?;
        Some(Outcome {
            offset,
            ..outcome.clone()
        })
    }

    /// Which of the commands that came from one command stands at this offset.
    fn place(&self, offset: usize, from: usize) -> usize {
        let earlier = |pair: &&(usize, usize)| pair.1 == from && pair.0 < offset;
        self.offsets.iter().filter(earlier).count()
    }
}

/// Holds the engine to the promise where the job has a whole B that is read and the job with R
/// commands isn't too long. The engine's outcome of the job itself is the expected one by now.
pub fn check(case: &Case, before: &[u8], expected: &Outcome) -> Result<Option<Held>, String> {
    let expanded = expand(&case.job);
    let read = |&first: &usize| expected.number != 1 && first <= expected.offset;
    if expanded.first.filter(read).is_none() || expanded.job.len() > LONGEST {
        return Ok(None);
    }
    let by_rows = Case {
        job: expanded.job.clone(),
        ..case.clone()
    };
    let wanted = reference::run(&by_rows.job, before).ok_or("no reference of R for B")?;
    let wrong = |who: &str| format!("{who}: R for B comes out otherwise: {}", hex(&by_rows.job));
    if expanded.back(&wanted).as_ref() != Some(expected) {
        return Err(wrong("reference"));
    }
    if !matches(&wanted, &engine::call(&by_rows, before)) {
        return Err(wrong("engine"));
    }
    let by_row = matches!(expected.number, 7 | 8) && case.job[expected.offset] == b'B';
    let row = by_row.then(|| expanded.place(wanted.offset, expected.offset));
    Ok(Some(Held { row }))
}
