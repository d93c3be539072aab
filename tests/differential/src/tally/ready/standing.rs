//! Blocks that stand, come and go in the jobs, and the queries over them.

use super::kinds::{Counts, Kind};
use crate::format::{self, number, sets};
use crate::reference::{Block, Outcome, HEAVIEST};
use crate::walk::{Query, Standing};

/// What D commands have done.
#[derive(Default)]
pub struct Changes {
    /// A block has gone, and one has moved down.
    pub gone: bool,
    pub moved: bool,
}

/// By the commands that were accepted.
pub fn changes(job: &[u8], outcome: &Outcome) -> Changes {
    let mut changes = Changes::default();
    // Whether each one that stands is a block.
    let mut standing: Vec<bool> = Vec::new();
    for command in format::cut(&job[..outcome.offset]).expect("they were accepted") {
        match command[0] {
            b'T' | b'A' | b'F' => standing.push(command[0] == b'F'),
            // P's answer is the first of all; its second byte is the count.
            b'P' => standing = vec![false; outcome.buffer[1].into()],
            b'D' => {
                let at = usize::from(command[1]);
                changes.gone |= standing.remove(at);
                changes.moved |= standing[at..].contains(&true);
            }
            _ => {}
        }
    }
    changes
}

/// An accepted job with F.
pub fn add_accepted(counts: &mut Counts, job: &[u8], outcome: &Outcome) {
    counts.count(Kind::Accepted, 1);
    counts.count_if(Kind::WithTerms, format::has(job, b"T"));
    counts.count_if(Kind::WithPrices, format::has(job, b"W"));
    counts.count_if(Kind::WithRows, format::has(job, b"B"));
    let commands = format::cut(job).expect("accepted");
    let a = commands.iter().position(|c| c[0] == b'A');
    let f = commands.iter().rposition(|c| c[0] == b'F');
    counts.count_if(Kind::BehindA, a.is_some_and(|a| Some(a) < f));
    let changes = changes(job, outcome);
    counts.count_if(Kind::Gone, changes.gone);
    counts.count_if(Kind::Moved, changes.moved);
}

/// The queries over these candidates.
pub fn add_asked(counts: &mut Counts, standing: &Standing) {
    let candidates = &standing.candidates;
    let blocks: Vec<Block> = candidates.iter().filter_map(|c| c.block()).collect();
    if blocks.is_empty() {
        return;
    }
    let answered = standing.queries.iter().any(|query| query.answer.is_ok());
    let empty = blocks.iter().any(|b| b.vertices == [0; 32]);
    let equal = (1..blocks.len()).any(|i| blocks[..i].contains(&blocks[i]));
    counts.count_if(Kind::Empty, answered && empty);
    counts.count_if(Kind::Equal, answered && equal);
    for query in &standing.queries {
        match query.answer {
            Ok(answer) => add_answer(counts, standing, query, answer),
            Err(12) => counts.count(Kind::Unheld, 1),
            Err(17) => counts.count(Kind::TooMany, 1),
            Err(_) => {}
        }
    }
}

fn add_answer(counts: &mut Counts, standing: &Standing, query: &Query, answer: &[u8]) {
    let candidates = standing.candidates.iter().enumerate();
    let is_block = candidates.map(|(i, c)| u64::from(c.block().is_some()) << i);
    let all_blocks: u64 = is_block.sum();
    match query.command[0] {
        b'C' => add_cheapest(counts, standing, number(&answer[3..]), all_blocks),
        byte => {
            let kind = if byte == b'N' {
                Kind::Products
            } else {
                Kind::Pages
            };
            let with = sets(answer).iter().any(|set| set & all_blocks != 0);
            counts.count_if(kind, with);
        }
    }
}

fn add_cheapest(counts: &mut Counts, standing: &Standing, set: u64, all_blocks: u64) {
    let candidates = standing.candidates.iter().enumerate();
    let members = candidates.filter(|(i, _)| set >> i & 1 == 1);
    let blocks: Vec<Block> = members.filter_map(|(_, c)| c.block()).collect();
    let any = |is: &dyn Fn(&Block) -> bool| blocks.iter().any(is);
    counts.count_if(Kind::Cheapest, !blocks.is_empty());
    counts.count_if(
        Kind::BesideTerm,
        !blocks.is_empty() && set & !all_blocks != 0,
    );
    counts.count_if(Kind::NoCube, any(&|b| !is_cube(b)));
    counts.count_if(Kind::ForNothing, any(&|b| b.weight == 0));
    counts.count_if(Kind::Heaviest, any(&|b| b.weight == HEAVIEST));
    counts.count_if(Kind::TwoBytes, any(&|b| b.weight > 255));
}

/// Whether the vertices are those of a cube: as many as the inputs in which they differ allow.
fn is_cube(b: &Block) -> bool {
    let vertices: Vec<usize> = (0..256).filter(|&v| b.has(v)).collect();
    let differ = vertices.iter().fold(0, |bits, v| bits | (v ^ vertices[0]));
    vertices.len() == 1 << differ.count_ones()
}
