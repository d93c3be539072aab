//! The job stream: each command with its refusals in their order, its effect and its answer. What asks
//! about the covers is in `job/queries.rs`.

mod queries;

use super::candidate::{of_terms, Block, Candidate};
use super::covers::Covers;
use super::prices::{Prices, HIGHEST};
use super::products::Products;
use super::ranges::Range;
use super::table::{fits, Table, Term};
use crate::format;

pub const LONGEST: usize = 32_768;
pub const MOST_CANDIDATES: usize = 64;

/// What a call gives back: the three numbers and the whole answer buffer.
#[derive(Clone, PartialEq, Eq, Debug)]
pub struct Outcome {
    pub number: u64,
    pub offset: usize,
    pub written: usize,
    pub buffer: Vec<u8>,
}

impl Outcome {
    /// That of an accepted job over a buffer that its answers fill.
    pub fn accepted(job: &[u8], answers: Vec<u8>) -> Outcome {
        Outcome {
            number: 0,
            offset: job.len(),
            written: answers.len(),
            buffer: answers,
        }
    }

    pub fn packed(&self) -> u64 {
        (self.number << 32) + ((self.offset as u64) << 16) + self.written as u64
    }
}

pub enum Stop {
    Refused(u64),
    TooMany,
}

/// The problem so far and what the order of commands depends on.
#[derive(Clone)]
pub struct Problem {
    pub table: Option<Table>,
    /// By W, once it came.
    pub prices_set: Option<Prices>,
    pub has_row: [bool; 256],
    pub candidates: Vec<Candidate>,
    /// What the weight of each candidate may be.
    pub ranges: Vec<Range>,
    /// T, A or F: an A or F counts as a T, even if its candidate has gone again.
    pub terms_came: bool,
    pub primes_came: bool,
    /// L, C or N, and G or V, which count as an L.
    pub queries_came: bool,
    /// The covers by the standing candidates, once they are asked for, and the products; and those
    /// that may be the cheapest by the ranges.
    covers: Option<Covers>,
    products: Option<Products>,
    possibly_cheapest: Option<Vec<u64>>,
}

/// Runs a job over a buffer; None when it is more work than the reference takes on.
pub fn run(job: &[u8], buffer: &[u8]) -> Option<Outcome> {
    left_by(job, buffer).map(|(outcome, _)| outcome)
}

/// The outcome of a job, and the problem as its last command left it. A job that is too long has
/// no command.
pub fn left_by(job: &[u8], buffer: &[u8]) -> Option<(Outcome, Problem)> {
    let mut out = Outcome {
        number: 0,
        offset: 0,
        written: 0,
        buffer: buffer.to_vec(),
    };
    let mut problem = Problem::new();
    if job.len() > LONGEST || buffer.len() > LONGEST {
        out.number = 1;
        return Some((out, problem));
    }
    loop {
        // Each command gets a copy: a refused one leaves the problem as it found it.
        let mut next = problem.clone();
        match next.command(job, out.offset, buffer.len() - out.written) {
            Err(Stop::TooMany) => return None,
            Err(Stop::Refused(number)) => {
                out.number = number;
                return Some((out, problem));
            }
            Ok((width, answer)) => {
                out.buffer[out.written..out.written + answer.len()].copy_from_slice(&answer);
                out.written += answer.len();
                let ended = job[out.offset] == b'E';
                out.offset += width;
                problem = next;
                if ended {
                    return Some((out, problem));
                }
            }
        }
    }
}

/// An L, C, N or V of a job: its offset and bytes, the candidates that stand there with their
/// ranges, and its answer.
pub struct Query {
    pub at: usize,
    pub command: Vec<u8>,
    pub candidates: Vec<Candidate>,
    pub ranges: Vec<Range>,
    pub answer: Vec<u8>,
}

/// The table and the prices of a job, and its L, C, N and V commands.
pub struct Asked {
    pub table: Table,
    pub prices: Prices,
    pub queries: Vec<Query>,
}

/// What a job asks; None when it is refused, and when it is more work than the reference takes on.
pub fn asked(job: &[u8]) -> Option<Asked> {
    let mut problem = Problem::new();
    let mut queries = Vec::new();
    let mut at = 0;
    loop {
        let (width, answer) = problem.command(job, at, LONGEST).ok()?;
        match job[at] {
            b'E' => break,
            byte if format::QUERIES.contains(&byte) => queries.push(Query {
                at,
                command: job[at..at + width].to_vec(),
                candidates: problem.candidates.clone(),
                ranges: problem.ranges.clone(),
                answer,
            }),
            _ => {}
        }
        at += width;
    }
    Some(Asked {
        prices: problem.prices(),
        table: problem.table?,
        queries,
    })
}

fn refuse_if(wrong: bool, number: u64) -> Result<(), Stop> {
    if wrong {
        Err(Stop::Refused(number))
    } else {
        Ok(())
    }
}

impl Problem {
    pub fn new() -> Problem {
        Problem {
            table: None,
            prices_set: None,
            has_row: [false; 256],
            candidates: Vec::new(),
            ranges: Vec::new(),
            terms_came: false,
            primes_came: false,
            queries_came: false,
            covers: None,
            products: None,
            possibly_cheapest: None,
        }
    }

    /// One command with its refusals in the order in which they are tried: its width and answer.
    pub fn command(
        &mut self,
        job: &[u8],
        at: usize,
        free: usize,
    ) -> Result<(usize, Vec<u8>), Stop> {
        let Some(&byte) = job.get(at) else {
            return Err(Stop::Refused(2));
        };
        let Some(width) = format::find(byte).map(|command| 1 + command.width()) else {
            return Err(Stop::Refused(3));
        };
        refuse_if(!self.allowed(byte), 4)?;
        let Some(ops) = job.get(at + 1..at + width) else {
            return Err(Stop::Refused(5));
        };
        let answer = match byte {
            b'I' => self.sizes(ops)?,
            b'W' => self.set_prices(ops)?,
            b'R' | b'B' => self.rows(ops)?,
            b'T' | b'A' => self.term(ops)?,
            b'F' => self.block(ops)?,
            b'D' => self.take_out(ops)?,
            b'P' => self.primes()?,
            b'L' => self.page(ops)?,
            b'G' => self.set_range(ops)?,
            b'V' => self.ranged_page(ops)?,
            b'C' => self.cheapest()?,
            b'N' => self.multiplied()?,
            b'E' => {
                refuse_if(at + 1 != job.len(), 13)?;
                vec![0x65]
            }
            _ => unreachable!("format.rs has a command that has no meaning here"),
        };
        refuse_if(answer.len() > free, 14)?;
        Ok((width, answer))
    }

    fn allowed(&self, command: u8) -> bool {
        let candidates_open = !self.primes_came && !self.queries_came;
        match command {
            b'I' => self.table.is_none(),
            b'W' => {
                let first = self.prices_set.is_none() && !self.has_row.contains(&true);
                self.table.is_some() && first && candidates_open && !self.terms_came
            }
            b'R' | b'B' | b'P' => self.table.is_some() && candidates_open && !self.terms_came,
            b'T' | b'F' => self.table.is_some() && candidates_open,
            b'A' | b'D' | b'L' | b'C' | b'N' | b'G' | b'V' | b'E' => self.table.is_some(),
            _ => unreachable!("format.rs has a command that has no place here"),
        }
    }

    fn table(&mut self) -> &mut Table {
        self.table.as_mut().expect("I came first")
    }

    fn sizes(&mut self, ops: &[u8]) -> Result<Vec<u8>, Stop> {
        let (n, m) = (usize::from(ops[0]), usize::from(ops[1]));
        refuse_if(!(1..=8).contains(&n) || !(1..=8).contains(&m), 6)?;
        self.table = Some(Table::new(n, m));
        Ok(Vec::new())
    }

    fn set_prices(&mut self, ops: &[u8]) -> Result<Vec<u8>, Stop> {
        refuse_if(ops.iter().any(|&price| price > HIGHEST), 16)?;
        self.prices_set = Some(Prices::of(ops));
        Ok(Vec::new())
    }

    /// The prices set, or the usual ones.
    pub fn prices(&self) -> Prices {
        self.prices_set.unwrap_or(Prices::USUAL)
    }

    /// R with one pair of on and dc, B with eight: one by one, for rising vertices. The first row
    /// that is refused ends it.
    fn rows(&mut self, ops: &[u8]) -> Result<Vec<u8>, Stop> {
        let first = usize::from(ops[0]);
        for (i, pair) in ops[1..].chunks(2).enumerate() {
            self.row(first + i, pair[0], pair[1])?;
        }
        Ok(Vec::new())
    }

    /// A vertex above 255 is one of 2^n or more.
    fn row(&mut self, v: usize, on: u8, dc: u8) -> Result<(), Stop> {
        let vertices = self.table().vertices();
        refuse_if(v >= vertices || self.has_row[v], 7)?;
        let table = self.table();
        refuse_if(on & dc != 0 || !fits(on, table.m) || !fits(dc, table.m), 8)?;
        table.on[v] = on;
        table.dc[v] = dc;
        self.has_row[v] = true;
        Ok(())
    }

    fn term(&mut self, ops: &[u8]) -> Result<Vec<u8>, Stop> {
        let t = Term {
            care: ops[0],
            value: ops[1],
            outputs: ops[2],
        };
        refuse_if(!self.table().well_formed(t), 9)?;
        self.put_in(Candidate::Term(t))
    }

    fn block(&mut self, ops: &[u8]) -> Result<Vec<u8>, Stop> {
        let b = Block::of(ops);
        refuse_if(!b.well_formed(self.table()), 18)?;
        self.put_in(Candidate::Block(b))
    }

    /// What is behind 9 and 18 for terms and blocks alike.
    fn put_in(&mut self, candidate: Candidate) -> Result<Vec<u8>, Stop> {
        refuse_if(candidate.holds_off_cell(self.table()), 10)?;
        refuse_if(self.candidates.len() == MOST_CANDIDATES, 11)?;
        self.candidates.push(candidate);
        self.ranges.push(self.own_range(&candidate));
        self.terms_came = true;
        self.forget();
        Ok(Vec::new())
    }

    /// Both ends of a new candidate's range equal its weight.
    fn own_range(&self, candidate: &Candidate) -> Range {
        Range::at(self.prices().cost_of(candidate))
    }

    /// The candidates above move down by one, with their ranges.
    fn take_out(&mut self, ops: &[u8]) -> Result<Vec<u8>, Stop> {
        let number = usize::from(ops[0]);
        refuse_if(number >= self.candidates.len(), 15)?;
        self.candidates.remove(number);
        self.ranges.remove(number);
        self.forget();
        Ok(Vec::new())
    }

    /// Other candidates have other covers.
    fn forget(&mut self) {
        self.covers = None;
        self.products = None;
        self.possibly_cheapest = None;
    }

    /// A later one replaces the earlier. The weight stays, whether the range has it or not.
    fn set_range(&mut self, ops: &[u8]) -> Result<Vec<u8>, Stop> {
        let number = usize::from(ops[0]);
        let range = Range::of(&ops[1..]);
        refuse_if(number >= self.candidates.len(), 15)?;
        refuse_if(!range.well_formed(), 19)?;
        self.ranges[number] = range;
        self.possibly_cheapest = None;
        self.queries_came = true;
        Ok(Vec::new())
    }

    fn primes(&mut self) -> Result<Vec<u8>, Stop> {
        let primes = self.table().primes();
        refuse_if(primes.len() > MOST_CANDIDATES, 11)?;
        let mut answer = vec![0x70, primes.len() as u8];
        for t in &primes {
            answer.extend([t.care, t.value, t.outputs]);
        }
        self.candidates = of_terms(&primes);
        self.ranges = self.candidates.iter().map(|c| self.own_range(c)).collect();
        self.primes_came = true;
        Ok(answer)
    }
}
