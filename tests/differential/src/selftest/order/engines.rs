//! Engines over sound jobs that go by the order of the candidates, made of the reference: each gets
//! what stands at a query and changes what is due there.

use crate::engine::Seen;
use crate::format::{cut, number};
use crate::generate::{put, Case};
use crate::reference::{self, Asked, Candidate, Covers, Outcome, Prices, Query, Table};

/// What stands at a query.
pub struct At<'a> {
    pub table: &'a Table,
    pub prices: Prices,
    pub candidates: &'a [Candidate],
    /// Whether each came by T.
    pub by_term: &'a [bool],
}

/// What is answered there: the lists of L and N, and cost and set of the cheapest; or the number of a
/// refusal at L, C and N.
pub struct Told {
    pub list: Vec<u64>,
    pub products: Vec<u64>,
    pub cheapest: (u64, u64),
    pub refused: [Option<u64>; 3],
}

pub type Mistake = fn(&At, &mut Told);

pub fn right(_: &At, _: &mut Told) {}

/// Runs a job with a mistake at each query. A job that is not sound comes out as due.
pub fn call(mistake: Mistake, case: &Case, before: &[u8]) -> Seen {
    let out = match reference::asked(&case.job) {
        Some(asked) => answered(mistake, &asked, &case.job, before),
        None => reference::run(&case.job, before).expect("small enough"),
    };
    Seen {
        packed: out.packed(),
        buffer: out.buffer,
        guards_kept: true,
        job_kept: true,
    }
}

fn answered(mistake: Mistake, asked: &Asked, job: &[u8], before: &[u8]) -> Outcome {
    let mut out = Outcome {
        number: 0,
        offset: 0,
        written: 0,
        buffer: before.to_vec(),
    };
    let end = (job.len() - 1, Ok(vec![0x65]));
    let told = |query: &Query| (query.at, told(mistake, asked, query, &job[..query.at]));
    for (at, answer) in asked.queries.iter().map(told).chain([end]) {
        out.offset = at;
        let free = before.len() - out.written;
        match answer {
            Err(number) => out.number = number,
            Ok(answer) if answer.len() > free => out.number = 14,
            Ok(answer) => {
                let end = out.written + answer.len();
                out.buffer[out.written..end].copy_from_slice(&answer);
                out.written = end;
                continue;
            }
        }
        return out;
    }
    out.offset = job.len();
    out
}

/// The answer to a query, or its refusal.
fn told(mistake: Mistake, asked: &Asked, query: &Query, head: &[u8]) -> Result<Vec<u8>, u64> {
    let commands = cut(head).expect("a sound job");
    let came = commands.iter().filter(|c| b"TAF".contains(&c[0]));
    let by_term: Vec<bool> = came.map(|c| c[0] == b'T').collect();
    let at = At {
        table: &asked.table,
        prices: asked.prices,
        candidates: &query.candidates,
        by_term: &by_term,
    };
    let Covers::All(covers) = reference::irredundant_covers(at.table, at.candidates) else {
        unreachable!("few candidates, which hold each wanted cell");
    };
    let mut told = Told {
        cheapest: reference::cheapest(at.prices, at.candidates, &covers),
        products: covers.clone(),
        list: covers,
        refused: [None; 3],
    };
    mistake(&at, &mut told);
    let place = b"LCN".iter().position(|byte| *byte == query.command[0]);
    match told.refused[place.expect("a query")] {
        Some(number) => Err(number),
        None => Ok(told.answer(&query.command)),
    }
}

impl Told {
    fn answer(&self, command: &[u8]) -> Vec<u8> {
        let mut answer = Vec::new();
        let sets = match command {
            [b'L', ops @ ..] => {
                let (start, count) = (number(&ops[..8]), usize::from(ops[8]));
                let above: Vec<u64> = self.list.iter().copied().filter(|&s| s >= start).collect();
                let k = above.len().min(count);
                answer.extend([0x6c, k as u8, u8::from(k < above.len())]);
                above[..k].to_vec()
            }
            [b'C', ..] => {
                answer.push(0x63);
                answer.extend((self.cheapest.0 as u16).to_le_bytes());
                vec![self.cheapest.1]
            }
            _ => {
                answer.push(0x6e);
                answer.extend((self.products.len() as u16).to_le_bytes());
                self.products.clone()
            }
        };
        sets.iter().for_each(|set| answer.extend(set.to_le_bytes()));
        answer
    }

    /// All sets with other numbers.
    fn renumber(&mut self, numbers: &[usize]) {
        let moved = |set: &u64| {
            let members = (0..numbers.len()).filter(|i| set >> i & 1 == 1);
            members.fold(0, |new, i| new | 1 << numbers[i])
        };
        for list in [&mut self.list, &mut self.products] {
            *list = list.iter().map(moved).collect();
            list.sort_unstable();
            list.dedup();
        }
        self.cheapest.1 = moved(&self.cheapest.1);
    }
}

fn key(candidate: &Candidate) -> Vec<u8> {
    put(candidate)
}

/// Something of the order that a reordering can change.
fn falls(at: &At) -> bool {
    let ends = [at.candidates.first(), at.candidates.last()];
    matches!(ends, [Some(first), Some(last)] if key(first) > key(last))
}

/// The members by their number.
fn members(set: u64) -> impl Iterator<Item = usize> {
    (0..64).filter(move |i| set >> i & 1 == 1)
}

/// Of equal candidates the first alone is taken.
fn without_copies(at: &At, list: &mut Vec<u64>) {
    let is_copy = |i: usize| at.candidates[..i].contains(&at.candidates[i]);
    list.retain(|&set| !members(set).any(is_copy));
}

/// The candidates in the order of this key have the numbers from 0 on.
fn numbered_by<K: Ord>(at: &At, told: &mut Told, key: impl Fn(usize) -> K) {
    let mut list: Vec<usize> = (0..at.candidates.len()).collect();
    list.sort_by_key(|&i| key(i));
    let place = |i: usize| {
        list.iter()
            .position(|&old| old == i)
            .expect("each is there")
    };
    let numbers: Vec<usize> = (0..list.len()).map(place).collect();
    told.renumber(&numbers);
}

fn copies_once(at: &At, told: &mut Told) {
    let number = |i: usize| {
        let first = at.candidates.iter().position(|t| *t == at.candidates[i]);
        let first = first.expect("each is there");
        let earlier = 0..first;
        let own = earlier.filter(|&j| !at.candidates[..j].contains(&at.candidates[j]));
        own.count()
    };
    let numbers: Vec<usize> = (0..at.candidates.len()).map(number).collect();
    told.renumber(&numbers);
}

/// Cost and set of a cover.
fn costing(at: &At, set: u64) -> (u64, u64) {
    (reference::cost(at.prices, at.candidates, set), set)
}

/// From all candidates each that is not needed is dropped, one by one.
fn dropped(at: &At, numbers: impl Iterator<Item = usize>) -> (u64, u64) {
    let sums = reference::sums(at.table, at.candidates);
    let mut set = (0..at.candidates.len()).fold(0, |all, i| all | 1 << i);
    for i in numbers {
        if reference::is_cover(&sums, set & !(1 << i)) {
            set &= !(1 << i);
        }
    }
    costing(at, set)
}

/// The cheapest where the first candidate costs nothing.
fn first_for_nothing(at: &At, list: &[u64]) -> (u64, u64) {
    let cost = |set: u64| costing(at, set & !1).0;
    let by_cost = list.iter().map(|&set| (cost(set), set));
    by_cost.min().expect("a cover")
}

pub const MISTAKES: [(&str, Mistake); 21] = [
    ("the list has one of equal candidates", |at, told| {
        without_copies(at, &mut told.list);
    }),
    ("N has one of equal candidates", |at, told| {
        without_copies(at, &mut told.products);
    }),
    ("the last set is left out in some orders", |at, told| {
        told.list.truncate(told.list.len() - usize::from(falls(at)));
    }),
    ("the first set is left out in some orders", |at, told| {
        told.list.drain(..usize::from(falls(at)));
    }),
    ("N leaves the last set out in some orders", |at, told| {
        let left = told.products.len() - usize::from(falls(at));
        told.products.truncate(left);
    }),
    ("another set in the list in some orders", |at, told| {
        told.list[0] ^= u64::from(falls(at));
    }),
    ("another set in N in some orders", |at, told| {
        told.products[0] ^= u64::from(falls(at));
    }),
    ("candidates are numbered by their terms", |at, told| {
        numbered_by(at, told, |i| key(&at.candidates[i]));
    }),
    ("equal candidates have one number", copies_once),
    ("A is numbered behind all T", |at, told| {
        numbered_by(at, told, |i| !at.by_term[i]);
    }),
    ("A is numbered before all T", |at, told| {
        numbered_by(at, told, |i| at.by_term[i]);
    }),
    ("the first cover is the cheapest", |at, told| {
        told.cheapest = costing(at, told.list[0]);
    }),
    ("the last cover is the cheapest", |at, told| {
        told.cheapest = costing(at, told.list[told.list.len() - 1]);
    }),
    ("a greedy pass from the first on", |at, told| {
        told.cheapest = dropped(at, 0..at.candidates.len());
    }),
    ("a greedy pass from the last on", |at, told| {
        told.cheapest = dropped(at, (0..at.candidates.len()).rev());
    }),
    ("the first candidate costs nothing", |at, told| {
        told.cheapest = first_for_nothing(at, &told.list);
    }),
    ("a set of another cost", |_, told| {
        told.cheapest.1 = told.list[told.list.len() - 1];
    }),
    ("12 in some orders", |at, told| {
        told.refused[0] = falls(at).then_some(12);
    }),
    ("14 in some orders", |at, told| {
        told.refused[1] = falls(at).then_some(14);
    }),
    ("17 in some orders", |at, told| {
        told.refused[2] = falls(at).then_some(17);
    }),
    ("11 in some orders", |at, told| {
        told.refused = [falls(at).then_some(11); 3];
    }),
];
