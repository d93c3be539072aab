//! Ways to read K6 and K10 that are wrong. In every run each of them must have been seen to be: it
//! gives some C of the drawn jobs another cost or another set.

use super::{charge, charge_block, RIGHT};
use crate::reference::{Block, Term};

/// What prices make a term cost, and a block.
#[derive(Clone, Copy)]
pub struct Way {
    pub term: OfTerm,
    pub block: OfBlock,
}

type OfTerm = fn([u8; 3], &Term) -> u64;
type OfBlock = fn([u8; 3], &Block) -> u64;

impl Way {
    /// Terms alone are charged in another way.
    pub fn of_terms(term: OfTerm) -> Way {
        Way { term, ..RIGHT }
    }

    /// Blocks alone.
    pub fn of_blocks(block: OfBlock) -> Way {
        Way { block, ..RIGHT }
    }
}

pub const WRONG: [(&str, OfTerm); 11] = [
    ("usual prices at C", |_, t| by([1, 1, 0], t)),
    ("one literal charged", |prices, t| {
        let one = t.care.count_ones() == 1;
        by(prices, t) + u64::from(one) * u64::from(prices[1])
    }),
    ("literals charged from three on", |prices, t| {
        let two = t.care.count_ones() == 2;
        by(prices, t) - 2 * u64::from(two) * u64::from(prices[1])
    }),
    ("one of the literals not charged", |prices, t| {
        let charged = t.care.count_ones() > 1;
        by(prices, t) - u64::from(charged) * u64::from(prices[1])
    }),
    (
        "connections charged once a term",
        |[term, literal, one], t| by([term, literal, 0], t) + u64::from(one),
    ),
    ("connections not charged", |[term, literal, _], t| {
        by([term, literal, 0], t)
    }),
    ("one connection free", |prices, t| {
        by(prices, t) - u64::from(prices[2])
    }),
    ("terms not charged", |[_, literal, connection], t| {
        by([0, literal, connection], t)
    }),
    ("prices of term and literal changed", |[a, b, c], t| {
        by([b, a, c], t)
    }),
    (
        "prices of literal and connection changed",
        |[a, b, c], t| by([a, c, b], t),
    ),
    ("prices of term and connection changed", |[a, b, c], t| {
        by([c, b, a], t)
    }),
];

fn by(prices: [u8; 3], t: &Term) -> u64 {
    charge(prices, t)
}

/// Blocks: the prices touch them, or the weight is another number.
pub const WRONG_BLOCKS: [(&str, OfBlock); 8] = [
    ("a block costs nothing", |_, _| 0),
    ("a block costs 1", |_, _| 1),
    ("a block costs a term more", |[term, ..], b| {
        charge_block([0; 3], b) + u64::from(term)
    }),
    ("a block costs the term price alone", |[term, ..], _| {
        u64::from(term)
    }),
    ("a block's connections are charged", |[.., one], b| {
        charge_block([0; 3], b) + u64::from(one) * u64::from(b.outputs.count_ones())
    }),
    ("a block's vertices are charged as literals", |prices, b| {
        let vertices: u32 = b.vertices.iter().map(|byte| byte.count_ones()).sum();
        charge_block(prices, b) + u64::from(prices[1]) * u64::from(vertices)
    }),
    ("the low byte of the weight alone", |_, b| {
        u64::from(b.weight & 255)
    }),
    ("the high byte of the weight first", |_, b| {
        u64::from(b.weight.swap_bytes())
    }),
];
