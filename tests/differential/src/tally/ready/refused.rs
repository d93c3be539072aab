//! F commands that are refused, by their number and the reason of 18.

use super::kinds::{Counts, Kind};
use crate::format;
use crate::reference::{Block, Candidate, Outcome, Table, HEAVIEST, MOST_CANDIDATES};

pub fn add(counts: &mut Counts, job: &[u8], outcome: &Outcome) {
    if job.get(outcome.offset) != Some(&b'F') {
        return;
    }
    match outcome.number {
        4 => counts.count(Kind::Misplaced, 1),
        5 => counts.count(Kind::Cut, 1),
        10 => counts.count(Kind::Off, 1),
        11 => counts.count(Kind::Full, 1),
        18 => of_eighteen(counts, job, outcome.offset),
        _ => {}
    }
}

fn of_eighteen(counts: &mut Counts, job: &[u8], offset: usize) {
    let before = format::cut(&job[..offset]).expect("they were accepted");
    let (table, standing) = problem(&before);
    let b = Block::of(&job[offset + 1..offset + 36]);
    let reasons = [
        (Kind::NoOutput, b.outputs == 0),
        (Kind::HighOutput, usize::from(b.outputs) >= 1 << table.m),
        (Kind::HighVertex, (table.vertices()..256).any(|v| b.has(v))),
        (Kind::Heavy, b.weight > HEAVIEST),
    ];
    let met: Vec<Kind> = reasons.iter().filter(|r| r.1).map(|r| r.0).collect();
    if let [kind] = met[..] {
        counts.count(kind, 1);
    }
    let off = Candidate::Block(b).holds_off_cell(&table);
    counts.count_if(Kind::BeforeOff, off);
    counts.count_if(Kind::BeforeFull, standing == MOST_CANDIDATES);
}

/// The table, and how many candidates stand. No P stands before an F that may be there.
fn problem(before: &[&[u8]]) -> (Table, usize) {
    let mut table = Table::new(1, 1);
    let mut standing = 0;
    for command in before {
        match **command {
            [b'I', n, m] => table = Table::new(n.into(), m.into()),
            [b'R' | b'B', first, ref pairs @ ..] => {
                for (i, pair) in pairs.chunks(2).enumerate() {
                    table.on[usize::from(first) + i] = pair[0];
                    table.dc[usize::from(first) + i] = pair[1];
                }
            }
            [b'T' | b'A' | b'F', ..] => standing += 1,
            [b'D', _] => standing -= 1,
            _ => {}
        }
    }
    (table, standing)
}
