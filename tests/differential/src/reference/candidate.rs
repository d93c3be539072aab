//! What may stand as a candidate: a product term, or a ready-made block of K10.

use super::table::{Cell, Table, Term};

/// The highest weight of a block; above it is refusal 18.
pub const HEAVIEST: u16 = 850;

/// The bytes that have a bit for each vertex.
pub const VERTEX_BYTES: usize = 32;

/// Any function: the vertices at which it is 1, the outputs that it drives, and what it costs.
#[derive(Clone, Copy, PartialEq, Eq, Debug)]
pub struct Block {
    pub outputs: u8,
    /// Bit v for vertex v, low bit first.
    pub vertices: [u8; VERTEX_BYTES],
    pub weight: u16,
}

impl Block {
    /// By the vertices that it has.
    pub fn new(outputs: u8, vertices: impl IntoIterator<Item = usize>, weight: u16) -> Block {
        let mut bits = [0; VERTEX_BYTES];
        for v in vertices {
            bits[v / 8] |= 1 << (v % 8);
        }
        Block {
            outputs,
            vertices: bits,
            weight,
        }
    }

    /// By the operands of an F.
    pub fn of(ops: &[u8]) -> Block {
        Block {
            outputs: ops[0],
            vertices: ops[1..1 + VERTEX_BYTES].try_into().expect("32 bytes"),
            weight: u16::from_le_bytes([ops[33], ops[34]]),
        }
    }

    pub fn has(self, v: usize) -> bool {
        self.vertices[v / 8] >> (v % 8) & 1 == 1
    }

    pub fn holds(self, v: usize, j: usize) -> bool {
        self.has(v) && self.outputs >> j & 1 == 1
    }

    /// What refusal 18 speaks of.
    pub fn well_formed(self, table: &Table) -> bool {
        let outputs = self.outputs != 0 && usize::from(self.outputs) < 1 << table.m;
        let vertices = (table.vertices()..8 * VERTEX_BYTES).all(|v| !self.has(v));
        outputs && vertices && self.weight <= HEAVIEST
    }
}

#[derive(Clone, Copy, PartialEq, Eq, Debug)]
pub enum Candidate {
    Term(Term),
    Block(Block),
}

impl Candidate {
    pub fn holds(self, v: usize, j: usize) -> bool {
        match self {
            Candidate::Term(t) => t.holds(v, j),
            Candidate::Block(b) => b.holds(v, j),
        }
    }

    /// What refusal 10 speaks of.
    pub fn holds_off_cell(self, table: &Table) -> bool {
        let mut cells = table.cells();
        cells.any(|(v, j)| self.holds(v, j) && table.cell(v, j) == Cell::Off)
    }

    pub fn term(self) -> Option<Term> {
        match self {
            Candidate::Term(t) => Some(t),
            Candidate::Block(_) => None,
        }
    }

    pub fn block(self) -> Option<Block> {
        match self {
            Candidate::Term(_) => None,
            Candidate::Block(b) => Some(b),
        }
    }
}

/// Terms as candidates.
pub fn of_terms(terms: &[Term]) -> Vec<Candidate> {
    terms.iter().copied().map(Candidate::Term).collect()
}
