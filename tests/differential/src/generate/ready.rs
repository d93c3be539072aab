//! Ready-made blocks for a table, legal by construction: they hold any vertices at which none of
//! their outputs is off.

use super::bytes::full;
use super::tables::MOST_TERMS;
use crate::reference::{Block, Candidate, Table, Term, HEAVIEST};
use crate::rng::Rng;

/// Mostly about what a term costs, so that it decides; often at the borders.
pub fn drawn_weight(rng: &mut Rng) -> u16 {
    match rng.below(10) {
        0 => 0,
        1 => HEAVIEST,
        2 => rng.between(0, HEAVIEST.into()) as u16,
        3 => rng.pick(&[255, 256, 257, 511, 512, 513, 768, 849]),
        _ => rng.between(1, 9) as u16,
    }
}

/// The vertices of a term's cube.
fn cube(n: usize, t: Term) -> impl Iterator<Item = usize> {
    (0..1usize << n).filter(move |&v| (v as u8 ^ t.value) & t.care == 0)
}

/// The block that holds what the term holds.
pub fn of_cube(n: usize, t: Term, weight: u16) -> Block {
    Block::new(t.outputs, cube(n, t), weight)
}

/// The outputs that may be driven at a vertex.
fn allowed(table: &Table, v: usize) -> u8 {
    table.on[v] | table.dc[v]
}

/// Some of the vertices at which these outputs are nowhere off, each so many times out of 4.
fn some_vertices(rng: &mut Rng, table: &Table, outputs: u8, times: usize) -> Vec<usize> {
    let legal = (0..table.vertices()).filter(|&v| outputs & !allowed(table, v) == 0);
    legal.filter(|_| rng.chance(times, 4)).collect()
}

/// Any legal block, now and then of no vertex and of all that may be.
pub fn any_block(rng: &mut Rng, table: &Table) -> Block {
    let outputs = match rng.below(3) {
        0 => rng.between(1, full(table.m).into()) as u8,
        _ => 1 << rng.below(table.m),
    };
    let times = rng.pick(&[0, 1, 1, 2, 2, 3, 4]);
    let vertices = some_vertices(rng, table, outputs, times);
    Block::new(outputs, vertices, drawn_weight(rng))
}

/// A block that holds what a legal term holds: its cube alone, or with further vertices.
pub fn around(rng: &mut Rng, table: &Table, t: Term) -> Block {
    let times = rng.pick(&[0, 0, 1, 2, 4]);
    let mut vertices = some_vertices(rng, table, t.outputs, times);
    vertices.extend(cube(table.n, t));
    Block::new(t.outputs, vertices, drawn_weight(rng))
}

/// The terms with blocks for some of them, which hold what these hold, and further blocks, some of
/// them equal to others.
pub fn mixed(rng: &mut Rng, table: &Table, terms: &[Term]) -> Vec<Candidate> {
    let times = rng.pick(&[0, 1, 2, 2, 4]);
    let mut list = Vec::new();
    for &t in terms {
        list.push(if rng.chance(times, 4) {
            Candidate::Block(around(rng, table, t))
        } else {
            Candidate::Term(t)
        });
    }
    for _ in 0..rng.between(usize::from(times == 0), 3) {
        let blocks: Vec<Candidate> = list.iter().copied().filter(is_block).collect();
        let further = if !blocks.is_empty() && rng.chance(1, 3) {
            rng.pick(&blocks)
        } else {
            Candidate::Block(any_block(rng, table))
        };
        if list.len() < MOST_TERMS {
            list.insert(rng.below(list.len() + 1), further);
        }
    }
    list
}

fn is_block(candidate: &Candidate) -> bool {
    candidate.block().is_some()
}

/// The same with a block for each second term or so, which holds these cells of its cube and some
/// more.
pub fn for_terms(
    rng: &mut Rng,
    n: usize,
    terms: &[Term],
    cells: impl Fn(usize) -> Vec<usize>,
) -> Vec<Candidate> {
    let mut list = Vec::new();
    for (i, &t) in terms.iter().enumerate() {
        let mut vertices: Vec<usize> = cube(n, t).filter(|_| rng.chance(1, 2)).collect();
        vertices.extend(cells(i));
        let block = Block::new(t.outputs, vertices, drawn_weight(rng));
        list.push(if rng.chance(1, 2) {
            Candidate::Block(block)
        } else {
            Candidate::Term(t)
        });
    }
    list
}
