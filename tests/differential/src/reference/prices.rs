//! What a term costs, by K6, and a block, by K10.

use super::candidate::Candidate;
use super::table::Term;

/// The highest price; above it is refusal 16.
pub const HIGHEST: u8 = 50;

/// The prices of a term, of a literal and of an output connection.
#[derive(Clone, Copy, PartialEq, Eq, Debug)]
pub struct Prices {
    pub term: u8,
    pub literal: u8,
    pub connection: u8,
}

impl Prices {
    /// Those of a job without W.
    pub const USUAL: Prices = Prices {
        term: 1,
        literal: 1,
        connection: 0,
    };

    /// By the operands of a W.
    pub fn of(ops: &[u8]) -> Prices {
        Prices {
            term: ops[0],
            literal: ops[1],
            connection: ops[2],
        }
    }

    /// The term price, the literal price for each literal where there are two or more (by K1 one
    /// literal takes no input of an AND gate), and the connection price for each output.
    pub fn cost(self, t: &Term) -> u64 {
        let charged = match t.care.count_ones() {
            0 | 1 => 0,
            literals => u64::from(literals),
        };
        let outputs = u64::from(t.outputs.count_ones());
        let [term, literal, connection] = [self.term, self.literal, self.connection].map(u64::from);
        term + literal * charged + connection * outputs
    }

    /// The weight of a block is its cost, whatever the prices are.
    pub fn cost_of(self, candidate: &Candidate) -> u64 {
        match candidate {
            Candidate::Term(t) => self.cost(t),
            Candidate::Block(b) => b.weight.into(),
        }
    }
}
