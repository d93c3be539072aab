//! The record that a job leaves, asked of the program `dump`: its text is the reference's, byte for
//! byte. What K5 says is asked of the text alone, too: each weight is what K6 charges by the text's
//! own prices for the care and the outputs beside it. A block has its own weight, up to 850. By K11 no
//! low end is above its high end, and none is above 850.

use crate::charged::charge;
use crate::generate::{self, Case};
use crate::reference::{
    self, Block, Candidate, Outcome, Range, Term, HEAVIEST, HIGHEST, LONGEST, VERTEX_BYTES,
};
use crate::report::{hex, shrink};
use crate::rng::Rng;
use crate::stored;
use crate::tally::Tally;
use crate::threads;
use std::env;
use std::io::{ErrorKind, Write};
use std::path::{Path, PathBuf};
use std::process::{Command, Stdio};

/// From the repository's root, where the run script starts this; DUMP names another one.
const PROGRAM: &str = "crates/dump/out/dump";

/// The record of a job that was compared.
pub struct Held {
    pub outcome: Outcome,
    pub weights: Weights,
}

/// The weights of a dump.
#[derive(Clone, PartialEq, Eq, Debug)]
pub struct Weights {
    /// Of a term, a literal and a connection.
    pub prices: [u8; 3],
    pub candidates: Vec<Weighed>,
}

#[derive(Clone, PartialEq, Eq, Debug)]
pub struct Weighed {
    pub candidate: Candidate,
    pub weight: u64,
    pub range: Range,
}

/// How many records were compared, and how many jobs were too large for the reference.
#[derive(Default)]
pub struct Counts {
    pub compared: usize,
    pub skipped: usize,
}

/// Compares the records of all the jobs; the first that is wrong ends in its words, with its job.
pub fn run(rng: &mut Rng, tally: &mut Tally, trace: bool) -> Result<Counts, String> {
    let program = env::var_os("DUMP").map_or(PROGRAM.into(), PathBuf::from);
    // Without the program there is nothing to shrink.
    dumped(&program, &[])?;
    let mut counts = Counts::default();
    for (drawn, jobs) in [
        (false, generate::records_on_purpose(rng)),
        (false, stored::without_queries()?),
        (true, generate::records_drawn(rng)),
    ] {
        let seen = threads::each(&jobs, |job| {
            if trace {
                println!("{} dump", hex(job));
            }
            check(&program, job)
        });
        for (job, held) in jobs.iter().zip(seen) {
            match held.map_err(|wrong| described(&wrong, &program, job))? {
                Some(held) => {
                    counts.compared += 1;
                    tally.add_record(job, &held, drawn);
                }
                None => counts.skipped += 1,
            }
        }
    }
    Ok(counts)
}

/// None where the job is more work than the reference takes on.
fn check(program: &Path, job: &[u8]) -> Result<Option<Held>, String> {
    let Some((mut outcome, text)) = reference::record(job) else {
        return Ok(None);
    };
    let weights = compare(&text, &dumped(program, job)?)?;
    // Thousands are kept: their answers are enough.
    outcome.buffer.truncate(outcome.written);
    outcome.buffer.shrink_to_fit();
    Ok(Some(Held { outcome, weights }))
}

/// The weights of a dump that is as expected.
pub fn compare(expected: &str, seen: &str) -> Result<Weights, String> {
    let weights = weights(seen)?;
    if seen != expected {
        return Err("the record is not the reference's".into());
    }
    Ok(weights)
}

/// What the program prints. It reads a job that is too long in part only.
fn dumped(program: &Path, job: &[u8]) -> Result<String, String> {
    let failed = |error: std::io::Error| format!("{}: {error}", program.display());
    let mut child = Command::new(program)
        .stdin(Stdio::piped())
        .stdout(Stdio::piped())
        .spawn()
        .map_err(failed)?;
    let mut lent = child.stdin.take().expect("it is piped");
    match lent.write_all(job) {
        Err(error) if error.kind() != ErrorKind::BrokenPipe => return Err(failed(error)),
        _ => drop(lent),
    }
    let output = child.wait_with_output().map_err(failed)?;
    if !output.status.success() {
        return Err(format!("{}: {}", program.display(), output.status));
    }
    String::from_utf8(output.stdout).map_err(|error| error.to_string())
}

/// By the text alone: every weight must be K6's.
fn weights(text: &str) -> Result<Weights, String> {
    let prices = prices(text).ok_or("no line of prices, or a wrong one")?;
    let lines = text.lines().filter(|line| line.starts_with("candidate"));
    let wrong = |line| format!("K6 does not charge this weight at {prices:?}: {line}");
    let weighed = lines.map(|line| weighed(line, prices).ok_or_else(|| wrong(line)));
    Ok(Weights {
        prices,
        candidates: weighed.collect::<Result<_, _>>()?,
    })
}

/// Those of the one line that names them.
fn prices(text: &str) -> Option<[u8; 3]> {
    let mut lines = text.lines().filter(|line| line.starts_with("prices"));
    let words: Vec<&str> = lines.next()?.split(' ').collect();
    let ["prices", term, literal, connection] = words[..] else {
        return None;
    };
    let price = |word: &str| word.parse().ok().filter(|&price| price <= HIGHEST);
    let list = [price(term)?, price(literal)?, price(connection)?];
    lines.next().is_none().then_some(list)
}

fn weighed(line: &str, prices: [u8; 3]) -> Option<Weighed> {
    let words: Vec<&str> = line.split(' ').collect();
    let (words, ends) = words.split_at_checked(words.len().checked_sub(4)?)?;
    let range = range(ends)?;
    let (candidate, weight, right) = match words[..] {
        ["candidate", _, "care", care, "value", value, "outputs", outputs, "weight", weight] => {
            let (term, weight) = (term([care, value, outputs])?, weight.parse().ok()?);
            let right = weight == charge(prices, &term);
            (Candidate::Term(term), weight, right)
        }
        ["candidate", _, "block", "outputs", outputs, "vertices", vertices, "weight", weight] => {
            let weight = weight.parse().ok()?;
            let block = block(outputs, vertices, weight)?;
            (Candidate::Block(block), weight.into(), weight <= HEAVIEST)
        }
        _ => return None,
    };
    right.then_some(Weighed {
        candidate,
        weight,
        range,
    })
}

fn range(words: &[&str]) -> Option<Range> {
    let ["low", low, "high", high] = words[..] else {
        return None;
    };
    let (low, high) = (low.parse().ok()?, high.parse().ok()?);
    (low <= high && high <= HEAVIEST).then_some(Range { low, high })
}

fn byte(word: &str) -> Option<u8> {
    u8::from_str_radix(word, 16).ok()
}

fn term([care, value, outputs]: [&str; 3]) -> Option<Term> {
    Some(Term {
        care: byte(care)?,
        value: byte(value)?,
        outputs: byte(outputs)?,
    })
}

fn block(outputs: &str, vertices: &str, weight: u16) -> Option<Block> {
    let mut block = Block::new(byte(outputs)?, [], weight);
    let whole = vertices.is_ascii() && vertices.len() == 2 * VERTEX_BYTES;
    for (i, place) in block.vertices.iter_mut().enumerate().filter(|_| whole) {
        *place = byte(&vertices[2 * i..2 * i + 2])?;
    }
    whole.then_some(block)
}

/// What is wrong with the record of a job, and the same of the job shrunk.
fn described(wrong: &str, program: &Path, job: &[u8]) -> String {
    let case = Case {
        job: job.to_vec(),
        behind: Vec::new(),
        room: LONGEST,
    };
    let small = shrink(&case, |case| check(program, &case.job).is_err()).job;
    [
        format!("a record: {wrong}\n{}", both(program, job)),
        format!("the same, shrunk\n{}", both(program, &small)),
    ]
    .concat()
}

/// The job, and its record by the reference and by the program.
fn both(program: &Path, job: &[u8]) -> String {
    let (_, expected) = reference::record(job).expect("it was compared before");
    let seen = dumped(program, job).unwrap_or_else(|wrong| wrong);
    [
        format!("job of {} bytes {}\n", job.len(), hex(job)),
        format!("reference, {} bytes:\n{expected}", expected.len()),
        format!("dump, {} bytes:\n{seen}\n", seen.len()),
    ]
    .concat()
}
