//! What K8 says of each N that is answered: its sets are L's pages joined until no more is reported.
//! It is held to the pages of its own job, where they reach the end over the same candidates, and to
//! those of a further job, which the engine gets. That prices leave the sets as they are is in
//! `listing.rs`, that A and D do in `fresh.rs`, and what they are by document 000 in
//! `implicants.rs`.

use crate::engine::{self, Seen};
use crate::format::{self, number, sets};
use crate::fresh::kept;
use crate::generate::{page, Case};
use crate::reference::{Outcome, LONGEST};
use crate::report::{hex, matches};
use crate::walk::{self, walk, Standing};

const CUT: &str = "the answers are not those of the commands";

/// A job with N commands that were come to and may stand there.
#[derive(Default)]
pub struct Held {
    /// How many sets each one has that is answered.
    pub counts: Vec<usize>,
    /// Those held to the pages of the same job: with the N before the first of these, between two
    /// and behind the last.
    pub before: usize,
    pub between: usize,
    pub behind: usize,
    /// Those held to the pages of a further job, and the pages of these.
    pub further: usize,
    pub pages: usize,
    /// The number of the one that is refused: 12, 17 or 14.
    pub refused: Option<u64>,
}

/// Holds each N of a job to L's pages. The engine's outcome of the job itself is the expected one by
/// now.
pub fn check(case: &Case, expected: &Outcome) -> Result<Held, String> {
    check_of(engine::call, case, expected)
}

/// The same of another engine.
pub fn check_of(
    call: impl Fn(&Case, &[u8]) -> Seen,
    case: &Case,
    expected: &Outcome,
) -> Result<Held, String> {
    let mut held = Held::default();
    if !case.job.contains(&b'N') {
        return Ok(held);
    }
    for standing in walk(&case.job, expected).ok_or(CUT)? {
        in_one_job(&standing, &mut held)?;
    }
    in_further_jobs(call, &case.job, expected, &mut held)?;
    let refused = case.job.get(expected.offset) == Some(&b'N');
    let number = Some(expected.number).filter(|number| [12, 14, 17].contains(number));
    held.refused = number.filter(|_| refused);
    Ok(held)
}

/// The pages from 0 on over the same candidates, by demand 3: the first start is 0, the next one is
/// above the last set that was got. The sets, and the places of these pages among the queries; None
/// where the last page reports more.
fn joined(standing: &Standing) -> Option<(Vec<u64>, Vec<usize>)> {
    let mut got: Vec<u64> = Vec::new();
    let mut places = Vec::new();
    for (place, query) in standing.queries.iter().enumerate() {
        let next = got.last().map_or(0, |last| last.wrapping_add(1));
        let ([b'L', ops @ ..], Ok(answer)) = (query.command, query.answer) else {
            continue;
        };
        if number(&ops[..8]) == next {
            got.extend(sets(answer));
            places.push(place);
            if answer[2] == 0 {
                return Some((got, places));
            }
        }
    }
    None
}

/// Every N over the same candidates has the same sets, and those of the joined pages.
fn in_one_job(standing: &Standing, held: &mut Held) -> Result<(), String> {
    let joined = joined(standing);
    let mut first = None;
    for (place, query) in standing.queries.iter().enumerate() {
        let (b"N", Ok(answer)) = (query.command, query.answer) else {
            continue;
        };
        if *first.get_or_insert(answer) != answer {
            return Err("two N over the same candidates have other sets".into());
        }
        let Some((got, places)) = &joined else {
            continue;
        };
        if sets(answer) != *got {
            return Err("the sets of N are not the joined pages of its job".into());
        }
        match places.iter().filter(|&&page| page < place).count() {
            0 => held.before += 1,
            earlier if earlier < places.len() => held.between += 1,
            _ => held.behind += 1,
        }
    }
    Ok(())
}

/// Each N against the engine's pages in a further job with the same table and candidates, once for
/// these.
fn in_further_jobs(
    call: impl Fn(&Case, &[u8]) -> Seen,
    job: &[u8],
    expected: &Outcome,
    held: &mut Held,
) -> Result<(), String> {
    let mut answers = &expected.buffer[..expected.written];
    let (mut at, mut primes, mut asked) = (0, &[][..], false);
    for command in format::cut(&job[..expected.offset]).ok_or(CUT)? {
        let width = walk::width(command[0], answers).ok_or(CUT)?;
        let (answer, rest) = answers.split_at_checked(width).ok_or(CUT)?;
        answers = rest;
        match command[0] {
            b'P' => primes = answer,
            b'N' => {
                if answer[0] != 0x6e {
                    return Err("the answer to N begins with another byte".into());
                }
                held.counts.push(sets(answer).len());
                if !asked {
                    in_a_further_job(&call, &job[..at], primes, answer, held)?;
                }
                asked = true;
            }
            // They leave the candidates as they are.
            b'L' | b'C' | b'V' | b'G' => {}
            _ => asked = false,
        }
        at += command.len();
    }
    Ok(())
}

/// What stands before the N without queries, pages that go on where the one before ends, and E. Each
/// page has a third of the sets, if 255 are enough for that, so its answer is known.
fn in_a_further_job(
    call: impl Fn(&Case, &[u8]) -> Seen,
    head: &[u8],
    primes: &[u8],
    products: &[u8],
    held: &mut Held,
) -> Result<(), String> {
    let list = sets(products);
    if list.is_empty() {
        return Err("N has no product".into());
    }
    let count = list.len().div_ceil(3).clamp(1, 255);
    let mut job = kept(head, |byte| !format::QUERIES.contains(&byte));
    let mut due = primes.to_vec();
    let mut start = 0;
    for (i, part) in list.chunks(count).enumerate() {
        let got = i * count + part.len();
        job.extend(page(start, count as u8));
        due.extend([0x6c, part.len() as u8, u8::from(got < list.len())]);
        part.iter().for_each(|set| due.extend(set.to_le_bytes()));
        start = part[part.len() - 1].wrapping_add(1);
    }
    job.push(b'E');
    due.push(0x65);
    if job.len() > LONGEST || due.len() > LONGEST {
        return Ok(());
    }
    let further = Case {
        room: due.len(),
        behind: Vec::new(),
        job,
    };
    let seen = call(&further, &engine::pattern(due.len(), 0x4b));
    if !matches(&Outcome::accepted(&further.job, due), &seen) {
        let job = hex(&further.job);
        return Err(format!("the sets of N are not the joined pages of {job}"));
    }
    held.further += 1;
    held.pages += list.len().div_ceil(count);
    Ok(())
}
