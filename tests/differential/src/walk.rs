//! A job walked along with its outcome: which prices, candidates and ranges stand at its L, C, N and V
//! commands, and what became of these; and the table at its P. It goes by what was answered and
//! refused, and leaves the reference aside.

use crate::charged::charge;
use crate::format::{self, number};
use crate::reference::{Block, Candidate, Outcome, Table, Term, VERTEX_BYTES};

/// An L, C, N or V with its answer or the number of its refusal.
pub struct Query<'a> {
    pub command: &'a [u8],
    pub answer: Result<&'a [u8], u64>,
}

/// Prices, table, candidates and ranges, and the L, C, N and V commands that met them, one behind the
/// other.
pub struct Standing<'a> {
    /// W's operands, or what stands for them where there is no W.
    pub prices: [u8; 3],
    pub table: Table,
    pub candidates: Vec<Candidate>,
    /// The low and the high end of each candidate's weight.
    pub ranges: Vec<Ends>,
    pub queries: Vec<Query<'a>>,
}

/// Low, then high.
pub type Ends = [u64; 2];

/// The L, C, N and V commands that were answered, and the one that was refused with 12 or, what is
/// tried behind it, with 17 or 14. None where the answers are not as long as the commands need.
pub fn walk<'a>(job: &'a [u8], outcome: &'a Outcome) -> Option<Vec<Standing<'a>>> {
    let (before, command) = job.split_at(outcome.offset);
    let mut answers = &outcome.buffer[..outcome.written];
    let mut standing = Standing::new();
    let mut list = Vec::new();
    for command in format::cut(before)? {
        let (answer, rest) = answers.split_at_checked(width(command[0], answers)?)?;
        answers = rest;
        if is_query(command) {
            let answer = Ok(answer);
            standing.queries.push(Query { command, answer });
        } else {
            list.extend(standing.asked());
            standing.set(command, answer);
        }
    }
    if matches!(outcome.number, 12 | 17 | 14) && is_query(command) {
        let answer = Err(outcome.number);
        standing.queries.push(Query { command, answer });
    }
    list.extend(standing.asked());
    answers.is_empty().then_some(list)
}

/// The table at P, and P's answer or the number of its refusal, 11 or 14. No answer stands before.
pub fn primes<'a>(job: &[u8], outcome: &'a Outcome) -> Option<(Table, Result<&'a [u8], u64>)> {
    let (before, rest) = job.split_at(outcome.offset);
    let commands = format::cut(before)?;
    let place = commands.iter().position(|command| command[0] == b'P');
    let answer = match (place, outcome.number, rest) {
        (Some(_), ..) => Ok(outcome.buffer.get(..width(b'P', &outcome.buffer)?)?),
        (None, 11 | 14, [b'P', ..]) => Err(outcome.number),
        _ => return None,
    };
    let mut standing = Standing::new();
    for command in &commands[..place.unwrap_or(commands.len())] {
        standing.set(command, &[]);
    }
    Some((standing.table, answer))
}

fn is_query(command: &[u8]) -> bool {
    command
        .first()
        .is_some_and(|byte| format::QUERIES.contains(byte))
}

/// How long the answer to a command is, at the head of the answers from there on.
pub fn width(byte: u8, answers: &[u8]) -> Option<usize> {
    let count = || answers.get(1).map(|&count| usize::from(count));
    match byte {
        b'P' => count().map(|count| 2 + 3 * count),
        b'L' | b'V' => count().map(|count| 3 + 8 * count),
        b'C' => Some(11),
        b'N' => answers.get(1..3).map(|two| 3 + 8 * number(two) as usize),
        b'E' => Some(1),
        _ => Some(0),
    }
}

fn term(bytes: &[u8]) -> Candidate {
    Candidate::Term(Term {
        care: bytes[0],
        value: bytes[1],
        outputs: bytes[2],
    })
}

/// Outputs, the bytes of the vertices and the weight.
fn block(bytes: &[u8]) -> Candidate {
    let (vertices, weight) = bytes[1..].split_at(VERTEX_BYTES);
    let mut block = Block::new(bytes[0], [], number(weight) as u16);
    block.vertices.copy_from_slice(vertices);
    Candidate::Block(block)
}

impl<'a> Standing<'a> {
    fn new() -> Standing<'a> {
        Standing {
            prices: [1, 1, 0],
            table: Table::new(0, 0),
            candidates: Vec::new(),
            ranges: Vec::new(),
            queries: Vec::new(),
        }
    }

    /// What has been asked since the last command that was no query, if anything.
    fn asked(&mut self) -> Option<Standing<'a>> {
        let queries = std::mem::take(&mut self.queries);
        (!queries.is_empty()).then(|| Standing {
            prices: self.prices,
            table: self.table.clone(),
            candidates: self.candidates.clone(),
            ranges: self.ranges.clone(),
            queries,
        })
    }

    /// What an accepted command makes of prices, table, candidates and ranges. The primes are those
    /// answered.
    fn set(&mut self, command: &[u8], answer: &[u8]) {
        let ops = &command[1..];
        match command[0] {
            b'I' => self.table = Table::new(usize::from(ops[0]), usize::from(ops[1])),
            b'W' => self.prices = [ops[0], ops[1], ops[2]],
            b'R' | b'B' => self.set_rows(ops),
            b'T' | b'A' => self.put_in(term(ops)),
            b'F' => self.put_in(block(ops)),
            b'D' => {
                self.candidates.remove(usize::from(ops[0]));
                self.ranges.remove(usize::from(ops[0]));
            }
            b'P' => answer[2..].chunks(3).for_each(|t| self.put_in(term(t))),
            b'G' => self.ranges[usize::from(ops[0])] = [number(&ops[1..3]), number(&ops[3..5])],
            _ => {}
        }
    }

    /// A new candidate has both ends equal to its weight. No other stands before the primes.
    fn put_in(&mut self, candidate: Candidate) {
        let weight = match &candidate {
            Candidate::Term(t) => charge(self.prices, t),
            Candidate::Block(b) => b.weight.into(),
        };
        self.candidates.push(candidate);
        self.ranges.push([weight, weight]);
    }

    fn set_rows(&mut self, ops: &[u8]) {
        for (i, pair) in ops[1..].chunks(2).enumerate() {
            let v = usize::from(ops[0]) + i;
            self.table.on[v] = pair[0];
            self.table.dc[v] = pair[1];
        }
    }
}
