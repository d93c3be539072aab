//! What K6 says of listing, asked of the engine: whatever the prices are, and without W too, a job
//! comes out the same but for the costs and sets that C answers. By K10 these stay, too, where all
//! candidates are blocks. V goes by the prices where no G has come, so it is left out of the job.

use crate::engine::{self, Seen};
use crate::format;
use crate::generate::{other_prices, prices, Case};
use crate::reference::{self, Outcome};
use crate::report::{hex, matches};
use crate::rng::Rng;
use crate::walk;

/// Where a W that is accepted stands: right behind I, as R to N, F and V may not stand before it and D
/// and G have no candidate there.
const PLACE: usize = 3;
const BEHIND: usize = 7;

/// A job that was held to those with other prices and without W.
pub struct Held {
    /// The pages that are answered, and how many of them have a set.
    pub pages: usize,
    pub with_sets: usize,
    /// The N commands that are answered.
    pub products: usize,
    /// Whether a C answers otherwise there.
    pub other_cheapest: bool,
    /// The C commands that are answered where all candidates are blocks: with the same bytes.
    pub of_blocks: usize,
}

/// Holds the engine to it where the job's W is accepted. The engine's outcome of the job itself is
/// the expected one by now.
pub fn check(case: &Case, before: &[u8], expected: &Outcome) -> Result<Option<Held>, String> {
    check_of(engine::call, case, before, expected)
}

/// The same of another engine.
pub fn check_of(
    call: impl Fn(&Case, &[u8]) -> Seen,
    case: &Case,
    before: &[u8],
    expected: &Outcome,
) -> Result<Option<Held>, String> {
    if !accepted(&case.job, expected) {
        return Ok(None);
    }
    if let Some(job) = without_ranged_pages(&case.job, expected) {
        let expected = reference::run(&job, before).ok_or("no reference without V")?;
        let without = Case {
            job,
            ..case.clone()
        };
        return check_of(call, &without, before, &expected);
    }
    let mut held = lists(&case.job, expected).ok_or("an answer is cut")?;
    for (job, shorter) in other_jobs(&case.job, expected) {
        let other = Case {
            job,
            ..case.clone()
        };
        let wrong = |who: &str| format!("{who}: not the same pages: {}", hex(&other.job));
        let wanted = reference::run(&other.job, before).ok_or("no reference")?;
        let back = Outcome {
            offset: wanted.offset + shorter,
            ..wanted.clone()
        };
        let same = without_cheapest(&case.job, expected) == without_cheapest(&case.job, &back);
        let untouched = held.of_blocks == 0 || wanted.buffer == expected.buffer;
        if !same || !untouched {
            return Err(wrong("reference"));
        }
        if !matches(&wanted, &call(&other, before)) {
            return Err(wrong("engine"));
        }
        held.other_cheapest |= wanted.buffer != expected.buffer;
    }
    Ok(Some(held))
}

/// The job without the V commands that are come to, if there are any.
fn without_ranged_pages(job: &[u8], outcome: &Outcome) -> Option<Vec<u8>> {
    let (before, rest) = job.split_at(outcome.offset);
    let commands = format::cut(before).expect("they were accepted");
    let at_page = rest.first() == Some(&b'V');
    if !at_page && commands.iter().all(|command| command[0] != b'V') {
        return None;
    }
    let kept = commands.iter().filter(|command| command[0] != b'V');
    let mut job: Vec<u8> = kept.copied().flatten().copied().collect();
    if !at_page {
        job.extend(rest);
    }
    Some(job)
}

fn accepted(job: &[u8], outcome: &Outcome) -> bool {
    let priced = job.get(PLACE) == Some(&b'W');
    priced && outcome.number != 1 && outcome.offset >= BEHIND
}

/// The job under other prices, the same for every run of it, and without W; and how many bytes
/// each is shorter. A second W, at which the job stops, would be the first then.
fn other_jobs(job: &[u8], outcome: &Outcome) -> Vec<(Vec<u8>, usize)> {
    let own = [job[PLACE + 1], job[PLACE + 2], job[PLACE + 3]];
    let other = prices(other_prices(&mut Rng::of(job), own));
    let (head, rest) = (&job[..PLACE], &job[BEHIND..]);
    let mut list = vec![([head, &other, rest].concat(), 0)];
    if job.get(outcome.offset) != Some(&b'W') {
        list.push(([head, rest].concat(), BEHIND - PLACE));
    }
    list
}

/// The answers before the outcome's offset, each with its command; None when they are cut.
fn answers<'a>(job: &'a [u8], outcome: &'a Outcome) -> Option<Vec<(u8, &'a [u8])>> {
    let mut rest = &outcome.buffer[..outcome.written];
    let mut list = Vec::new();
    for command in format::cut(&job[..outcome.offset])? {
        let (answer, behind) = rest.split_at_checked(walk::width(command[0], rest)?)?;
        list.push((command[0], answer));
        rest = behind;
    }
    rest.is_empty().then_some(list)
}

/// The outcome with what C answers left out: its numbers, the other answers at their places, and
/// the bytes behind them.
fn without_cheapest(job: &[u8], outcome: &Outcome) -> Option<Outcome> {
    let mut buffer = Vec::new();
    for (byte, answer) in answers(job, outcome)? {
        match byte {
            b'C' => buffer.extend([0x63; 11]),
            _ => buffer.extend(answer),
        }
    }
    buffer.extend(&outcome.buffer[outcome.written..]);
    Some(Outcome {
        buffer,
        ..outcome.clone()
    })
}

/// How many pages are answered, how many of them have a set, and how many N commands are answered.
fn lists(job: &[u8], outcome: &Outcome) -> Option<Held> {
    let answers = answers(job, outcome)?;
    let of = |wanted: u8| answers.iter().filter(move |(byte, _)| *byte == wanted);
    Some(Held {
        pages: of(b'L').count(),
        with_sets: of(b'L').filter(|(_, answer)| answer[1] > 0).count(),
        products: of(b'N').count(),
        other_cheapest: false,
        of_blocks: if blocks_alone(job, outcome) {
            of(b'C').count()
        } else {
            0
        },
    })
}

/// Blocks have come, and nothing else that costs.
fn blocks_alone(job: &[u8], outcome: &Outcome) -> bool {
    let read = &job[..outcome.offset];
    format::has(read, b"F") && !format::has(read, b"TAP")
}
