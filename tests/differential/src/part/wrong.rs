//! Ways to read the part's limits that are wrong. In every run each of them must have been seen to be:
//! it gives some L other sets.

use crate::reference::{Candidate, Table};

/// Whether a set fits.
pub type Fits = fn(&Table, &[Candidate], u64) -> bool;

/// The members of a set.
fn members(candidates: &[Candidate], set: u64) -> Vec<Candidate> {
    let numbers = (0..candidates.len()).filter(|i| set >> i & 1 == 1);
    numbers.map(|i| candidates[i]).collect()
}

/// How many of these have this output.
fn with_output(list: &[Candidate], j: usize) -> usize {
    list.iter().filter(|c| c.outputs() >> j & 1 == 1).count()
}

fn most_with_output(list: &[Candidate]) -> usize {
    let counts = (0..8).map(|j| with_output(list, j));
    counts.max().expect("eight outputs")
}

/// At most so many members, and so many for each output.
fn at(candidates: &[Candidate], set: u64, most: usize, for_output: usize) -> bool {
    let list = members(candidates, set);
    list.len() <= most && most_with_output(&list) <= for_output
}

/// The outputs of a member at which it holds a wanted cell.
fn driven(table: &Table, c: &Candidate) -> u8 {
    let held = table.wanted_cells().into_iter();
    held.filter(|&(v, j)| c.holds(v, j))
        .fold(0, |bits, (_, j)| bits | 1 << j)
}

pub const WRONG: [(&str, Fits); 20] = [
    ("33 members", |_, c, s| at(c, s, 33, 7)),
    ("31 members", |_, c, s| at(c, s, 31, 7)),
    ("any members", |_, c, s| at(c, s, 64, 7)),
    ("8 for an output", |_, c, s| at(c, s, 32, 8)),
    ("6 for an output", |_, c, s| at(c, s, 32, 6)),
    ("any for an output", |_, c, s| at(c, s, 32, 64)),
    ("limits exchanged", |_, c, s| at(c, s, 7, 32)),
    ("one limit is enough", |_, c, s| {
        at(c, s, 32, 64) || at(c, s, 64, 7)
    }),
    ("7 for all outputs together", |_, c, s| {
        let list = members(c, s);
        let sum: usize = (0..8).map(|j| with_output(&list, j)).sum();
        list.len() <= 32 && sum <= 7
    }),
    ("7 times the outputs together", |t, c, s| {
        let list = members(c, s);
        let sum: usize = (0..8).map(|j| with_output(&list, j)).sum();
        list.len() <= 32 && sum <= 7 * t.m
    }),
    ("members by their outputs", |_, c, s| {
        let list = members(c, s);
        let sum: usize = (0..8).map(|j| with_output(&list, j)).sum();
        sum <= 32 && most_with_output(&list) <= 7
    }),
    ("blocks have no outputs", |_, c, s| {
        let mut terms = members(c, s);
        terms.retain(|c| c.block().is_none());
        at(c, s, 32, 64) && most_with_output(&terms) <= 7
    }),
    ("blocks are no members", |_, c, s| {
        let mut terms = members(c, s);
        terms.retain(|c| c.block().is_none());
        at(c, s, 64, 7) && terms.len() <= 32
    }),
    ("the output above", |_, c, s| {
        let list = members(c, s);
        list.len() <= 32 && (1..8).all(|j| with_output(&list, j) <= 7)
    }),
    ("the output below", |t, c, s| {
        let list = members(c, s);
        list.len() <= 32 && (0..t.m - 1).all(|j| with_output(&list, j) <= 7)
    }),
    ("the lowest output of a member", |_, c, s| {
        let list = members(c, s);
        let lowest = |j: usize| move |c: &&Candidate| c.outputs().trailing_zeros() as usize == j;
        let counts = |j: usize| list.iter().filter(lowest(j)).count();
        list.len() <= 32 && (0..8).all(|j| counts(j) <= 7)
    }),
    ("members of one output alone", |_, c, s| {
        let mut single = members(c, s);
        single.retain(|c| c.outputs().count_ones() == 1);
        at(c, s, 32, 64) && most_with_output(&single) <= 7
    }),
    ("outputs with a wanted cell", |t, c, s| {
        let list = members(c, s);
        let driven: Vec<u8> = list.iter().map(|c| driven(t, c)).collect();
        let counts = |j: usize| driven.iter().filter(|&o| o >> j & 1 == 1).count();
        list.len() <= 32 && (0..8).all(|j| counts(j) <= 7)
    }),
    ("all candidates for an output", |_, c, s| {
        at(c, s, 32, 64) && most_with_output(c) <= 7
    }),
    ("all candidates in all", |_, c, s| {
        at(c, s, 64, 7) && c.len() <= 32
    }),
];

/// The sets of a list that fit by a wrong way.
pub fn fitting_by(way: Fits, table: &Table, candidates: &[Candidate], list: &[u64]) -> Vec<u64> {
    let mut fitting = list.to_vec();
    fitting.retain(|&set| way(table, candidates, set));
    fitting
}
