//! A job under construction: a list of commands, and the bytes of each.

use super::bytes::likely_bytes;
use super::Case;
use crate::format::{find, Part, BLOCK};
use crate::reference::{self, Block, Candidate, Range, LONGEST};
use crate::rng::Rng;

/// A job as a list of commands, so that commands can be moved as a whole.
#[derive(Clone)]
pub struct Draft {
    pub commands: Vec<Vec<u8>>,
}

impl Draft {
    pub fn job(&self) -> Vec<u8> {
        self.commands.concat()
    }

    /// The answer bytes that the job writes when it has room.
    pub fn need(&self) -> Option<usize> {
        need(&self.job())
    }

    /// The places of the commands that belong to this part of a job.
    pub fn places(&self, part: Part) -> Vec<usize> {
        let of_part = |i: &usize| find(self.commands[*i][0]).is_some_and(|c| c.part == part);
        (0..self.commands.len()).filter(of_part).collect()
    }

    /// The sizes named by the first command, kept to the allowed ones.
    pub fn sizes(&self) -> (usize, usize) {
        match self.commands.first().map(Vec::as_slice) {
            Some([b'I', n, m]) => (usize::from(*n).clamp(1, 8), usize::from(*m).clamp(1, 8)),
            _ => (2, 2),
        }
    }
}

/// The answer bytes that a job writes when it has room; None when the reference gives it up.
pub fn need(job: &[u8]) -> Option<usize> {
    reference::run(job, &[0; LONGEST]).map(|out| out.written)
}

/// W: the prices of a term, a literal and a connection.
pub fn prices(list: [u8; 3]) -> Vec<u8> {
    [&[b'W'], &list[..]].concat()
}

pub fn row(v: u8, on: u8, dc: u8) -> Vec<u8> {
    vec![b'R', v, on, dc]
}

/// On and dc of the rows of a B.
pub type Pairs = [[u8; 2]; BLOCK];

/// B: rows for the first vertex and the seven above.
pub fn block(first: u8, pairs: Pairs) -> Vec<u8> {
    [vec![b'B', first], pairs.concat()].concat()
}

pub fn term(care: u8, value: u8, outputs: u8) -> Vec<u8> {
    vec![b'T', care, value, outputs]
}

/// F: a ready-made block.
pub fn ready(b: &Block) -> Vec<u8> {
    let mut command = vec![b'F', b.outputs];
    command.extend(b.vertices);
    command.extend(b.weight.to_le_bytes());
    command
}

/// T or, for a block, F.
pub fn put(candidate: &Candidate) -> Vec<u8> {
    match candidate {
        Candidate::Term(t) => term(t.care, t.value, t.outputs),
        Candidate::Block(b) => ready(b),
    }
}

/// A: the term comes in behind the standing candidates.
pub fn come(care: u8, value: u8, outputs: u8) -> Vec<u8> {
    vec![b'A', care, value, outputs]
}

/// D: the candidate with this number goes.
pub fn go(number: u8) -> Vec<u8> {
    vec![b'D', number]
}

pub fn page(start: u64, count: u8) -> Vec<u8> {
    let mut command = vec![b'L'];
    command.extend(start.to_le_bytes());
    command.push(count);
    command
}

/// G: what the weight of the candidate with this number may be.
pub fn range(number: u8, Range { low, high }: Range) -> Vec<u8> {
    let mut command = vec![b'G', number];
    command.extend(low.to_le_bytes());
    command.extend(high.to_le_bytes());
    command
}

/// V: a page of the covers that may be the cheapest.
pub fn ranged_page(start: u64, count: u8) -> Vec<u8> {
    let mut command = page(start, count);
    command[0] = b'V';
    command
}

/// I, the parts (rows, candidates, queries, as a rule) and E.
pub fn draft<const PARTS: usize>(n: u8, m: u8, parts: [Vec<Vec<u8>>; PARTS]) -> Draft {
    let mut commands = vec![vec![b'I', n, m]];
    commands.extend(parts.into_iter().flatten());
    commands.push(vec![b'E']);
    Draft { commands }
}

/// Makes a case of a job with a buffer length that is near what the job needs, as a rule.
pub fn case(rng: &mut Rng, job: Vec<u8>, behind: Vec<u8>) -> Case {
    let room = match rng.below(16) {
        0..=4 => LONGEST,
        5 => rng.below(40),
        6 => rng.below(400),
        7 if rng.chance(1, 8) => rng.pick(&[LONGEST + 1, LONGEST + 2, 40_000, 65_535, 65_536]),
        8..=10 => need(&job).unwrap_or(0),
        11 => need(&job).unwrap_or(0).saturating_sub(1),
        12 => rng.below(need(&job).unwrap_or(0) + 1),
        _ => need(&job).unwrap_or(0) + rng.below(20),
    };
    Case { job, behind, room }
}

pub fn plain_case(rng: &mut Rng, draft: &Draft) -> Case {
    let behind = likely_bytes(rng, 12);
    case(rng, draft.job(), behind)
}
