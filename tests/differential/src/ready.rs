//! What K10 says of terms and blocks alike, asked of the engine: where blocks stand in for terms that
//! hold the same cells and cost as much, a job comes out the same, covers, pages, N and cheapest.

use crate::charged::charge;
use crate::engine::{self, Seen};
use crate::format;
use crate::generate::{of_cube, ready, Case};
use crate::reference::{self, Outcome, Term, LONGEST};
use crate::report::{hex, matches};
use crate::rng::Rng;

/// A job that was held to the one with blocks for terms.
#[derive(Default)]
pub struct Held {
    /// The T commands for which an F stood, and whether some were left.
    pub blocks: usize,
    pub terms_left: bool,
    /// The L, C and N commands that are answered behind them.
    pub pages: usize,
    pub cheapest: usize,
    pub products: usize,
    /// The number of the outcome.
    pub number: u64,
}

/// A job with an F for some of its T commands.
pub struct Replaced {
    pub job: Vec<u8>,
    pub blocks: usize,
    terms_left: bool,
    /// How many bytes more stand before the offset of the outcome.
    longer: usize,
}

/// Those T commands are taken that were accepted, and the one that is refused with 10 or 11, which
/// apply to F; 9 is 18 there.
pub fn replaced(job: &[u8], outcome: &Outcome, mut taken: impl FnMut() -> bool) -> Replaced {
    let (before, rest) = job.split_at(outcome.offset);
    let mut to = Replaced {
        job: Vec::new(),
        blocks: 0,
        terms_left: false,
        longer: 0,
    };
    let (mut n, mut prices) = (0, [1, 1, 0]);
    for command in format::cut(before).expect("they were accepted") {
        match *command {
            [b'I', inputs, _] => n = usize::from(inputs),
            [b'W', term, literal, connection] => prices = [term, literal, connection],
            _ => {}
        }
        to.put(command, n, prices, &mut taken);
    }
    to.longer = to.job.len() - before.len();
    match (outcome.number, rest.split_at_checked(4)) {
        (10 | 11, Some((term @ [b'T', ..], behind))) => {
            to.put(term, n, prices, &mut taken);
            to.job.extend(behind);
        }
        _ => to.job.extend(rest),
    }
    to
}

impl Replaced {
    fn put(&mut self, command: &[u8], n: usize, prices: [u8; 3], taken: &mut impl FnMut() -> bool) {
        match *command {
            [b'T', care, value, outputs] if taken() => {
                let t = Term {
                    care,
                    value,
                    outputs,
                };
                let block = of_cube(n, t, charge(prices, &t) as u16);
                self.job.extend(ready(&block));
                self.blocks += 1;
            }
            _ => {
                self.terms_left |= command[0] == b'T';
                self.job.extend(command);
            }
        }
    }
}

/// Holds the engine to it where the job has a T that is read. The engine's outcome of the job itself
/// is the expected one by now.
pub fn check(case: &Case, before: &[u8], expected: &Outcome) -> Result<Option<Held>, String> {
    check_of(engine::call, case, before, expected)
}

/// The same of another engine. All T commands are taken, or some, the same for every run of a job.
pub fn check_of(
    call: impl Fn(&Case, &[u8]) -> Seen,
    case: &Case,
    before: &[u8],
    expected: &Outcome,
) -> Result<Option<Held>, String> {
    if expected.number == 1 {
        return Ok(None);
    }
    let mut rng = Rng::of(&case.job);
    let all = rng.chance(1, 2);
    let to = replaced(&case.job, expected, || all || rng.chance(1, 2));
    if to.blocks == 0 || to.job.len() > LONGEST {
        return Ok(None);
    }
    let other = Case {
        job: to.job.clone(),
        ..case.clone()
    };
    let wrong = |who: &str| format!("{who}: F for T comes out otherwise: {}", hex(&to.job));
    let wanted = reference::run(&to.job, before).ok_or("no reference of F for T")?;
    let due = Outcome {
        offset: expected.offset + to.longer,
        ..expected.clone()
    };
    if wanted != due {
        return Err(wrong("reference"));
    }
    if !matches(&due, &call(&other, before)) {
        return Err(wrong("engine"));
    }
    Ok(Some(held(&case.job, expected, &to)))
}

fn held(job: &[u8], expected: &Outcome, to: &Replaced) -> Held {
    let commands = format::cut(&job[..expected.offset]).expect("they were accepted");
    let of = |byte: u8| commands.iter().filter(|c| c[0] == byte).count();
    Held {
        blocks: to.blocks,
        terms_left: to.terms_left,
        pages: of(b'L'),
        cheapest: of(b'C'),
        products: of(b'N'),
        number: expected.number,
    }
}
