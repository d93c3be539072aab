//! The commands of a job as a table, which the reference, the generator and the tally go by.
//!
//! To add a command:
//!
//! 1. here: an entry in `COMMANDS`, with a kind of operand of its own where none fits, and
//!    `LAST_NUMBER` where it brings a number;
//! 2. `reference/job.rs`: where it may stand (`allowed`), what refuses it and what it does
//!    (`command`), from the paper's text. The table stands still from the first T, A, F, P, L, C,
//!    N, G or V on; the candidates do not, and a command that changes them forgets the covers found
//!    so far;
//! 3. `generate/sound.rs` (settings, candidates), `generate/tables.rs` (rows),
//!    `generate/changes.rs` (candidates that come and go), `generate/ranges.rs` (what their weights
//!    may be) or `generate/queries.rs`: where a sound job has it;
//! 4. `generate/purpose.rs` (`purpose_changes.rs` for A and D, `purpose_blocks.rs` for B,
//!    `purpose_prices.rs` for W, `purpose_cubes.rs` for P, `purpose_products.rs` for N,
//!    `purpose_ready.rs` for F and `purpose_ranges.rs` for G and V): its borders, in every run;
//!    `purpose_order.rs`: jobs whose T commands change places; `selftest.rs`: the paper's cases;
//! 5. `fresh.rs`: whether a fresh job with the same table has it, and which pages go on behind it;
//! 6. `expanded.rs`: what it is written out as, where it stands for other commands as B does;
//! 7. `walk.rs`: what it makes of prices, table and candidates, and how long its answer is;
//! 8. `reference/record.rs`: what a dump of the record shows of it, as its place;
//! 9. `charged.rs` and `listing.rs`: what it makes of costs, and that the pages leave that aside;
//! 10. `implicants.rs` and `products.rs`: what its answer is by document 000, and by other commands;
//! 11. `reordered.rs`: whether it keeps its place where T commands change theirs, what comes of its
//!     answer there, and which refusal a mere reordering may bring;
//! 12. `ready.rs`: whether it stays where a block stands in for a term;
//! 13. `ranged.rs` and `without_ranges.rs`: whether it goes by the ranges, and that all others stay
//!     without them.
//!
//! A stored job that has it needs `stored.rs` too. Every command at every place, damage, cuts and
//! moved or doubled commands go by the table, and a run fails where a command was never accepted
//! or never met one of the refusals that its entry names (`tally.rs`).

use Operand::{Candidate, Inputs, Number, Outputs, Price, Size, Vertices, Weight};

/// The rows of a B.
pub const BLOCK: usize = 8;

/// The largest number of a refusal. Each from 0 on must come in every run.
pub const LAST_NUMBER: u64 = 19;

/// What an operand is: how many bytes it has, and what damage puts there (`generate/damage.rs`).
#[derive(Clone, Copy)]
pub enum Operand {
    /// A count of inputs or outputs, 1 to 8.
    Size,
    /// A byte with a bit for each input: vertex, care, value.
    Inputs,
    /// A byte with a bit for each output: on, dc, outputs.
    Outputs,
    /// A byte with a candidate's number.
    Candidate,
    /// A price, 0 to 50.
    Price,
    /// A bit for each vertex, 32 bytes.
    Vertices,
    /// The weight of a block, or an end of a range, two bytes, 0 to 850.
    Weight,
    /// A number of so many bytes that takes any value.
    Number(usize),
}

impl Operand {
    pub fn bytes(self) -> usize {
        match self {
            Operand::Number(bytes) => bytes,
            Operand::Vertices => 32,
            Operand::Weight => 2,
            _ => 1,
        }
    }
}

/// The part of a job that a command belongs to: damage spoils the operands of one part at a time.
#[derive(Clone, Copy, PartialEq, Eq)]
pub enum Part {
    Settings,
    Rows,
    Candidates,
    Ranges,
    Other,
}

pub struct Command {
    pub byte: u8,
    /// Operand bytes that are good over four inputs and one output: R's row is wanted and held by
    /// the term and by the block, B's rows stand elsewhere and are free.
    pub good: &'static [u8],
    pub operands: &'static [Operand],
    pub part: Part,
    /// The numbers that it can meet behind 4 and 5: by operands, problem and answer.
    pub refusals: &'static [u64],
}

/// The seven commands of paper 01, A and D of K2, B of K3, W of K6, N of K8, F of K10, and G and V of
/// K11.
pub const COMMANDS: &[Command] = &[
    Command {
        byte: b'I',
        good: &[4, 1],
        operands: &[Size, Size],
        part: Part::Other,
        refusals: &[6],
    },
    Command {
        byte: b'W',
        good: &[2, 3, 1],
        operands: &[Price, Price, Price],
        part: Part::Settings,
        refusals: &[16],
    },
    Command {
        byte: b'R',
        good: &[0, 1, 0],
        operands: &[Inputs, Outputs, Outputs],
        part: Part::Rows,
        refusals: &[7, 8],
    },
    Command {
        byte: b'B',
        good: &[8, 0, 1, 0, 1, 0, 1, 0, 1, 0, 1, 0, 1, 0, 1, 0, 1],
        operands: &FIRST_AND_PAIRS,
        part: Part::Rows,
        refusals: &[7, 8],
    },
    Command {
        byte: b'T',
        good: &[15, 0, 1],
        operands: &[Inputs, Inputs, Outputs],
        part: Part::Candidates,
        refusals: &[9, 10, 11],
    },
    Command {
        byte: b'F',
        good: &FIRST_VERTEX,
        operands: &[Outputs, Vertices, Weight],
        part: Part::Candidates,
        refusals: &[18, 10, 11],
    },
    Command {
        byte: b'A',
        good: &[15, 0, 1],
        operands: &[Inputs, Inputs, Outputs],
        part: Part::Candidates,
        refusals: &[9, 10, 11],
    },
    Command {
        byte: b'D',
        good: &[0],
        operands: &[Candidate],
        part: Part::Candidates,
        refusals: &[15],
    },
    Command {
        byte: b'P',
        good: &[],
        operands: &[],
        part: Part::Other,
        refusals: &[11, 14],
    },
    Command {
        byte: b'L',
        good: &[0, 0, 0, 0, 0, 0, 0, 0, 1],
        operands: &[Number(8), Number(1)],
        part: Part::Other,
        refusals: &[12, 14],
    },
    Command {
        byte: b'C',
        good: &[],
        operands: &[],
        part: Part::Other,
        refusals: &[12, 14],
    },
    Command {
        byte: b'N',
        good: &[],
        operands: &[],
        part: Part::Other,
        refusals: &[12, 17, 14],
    },
    Command {
        byte: b'G',
        good: &[0, 1, 0, 9, 0],
        operands: &[Candidate, Weight, Weight],
        part: Part::Ranges,
        refusals: &[15, 19],
    },
    Command {
        byte: b'V',
        good: &[0, 0, 0, 0, 0, 0, 0, 0, 1],
        operands: &[Number(8), Number(1)],
        part: Part::Other,
        refusals: &[12, 14],
    },
    Command {
        byte: b'E',
        good: &[],
        operands: &[],
        part: Part::Other,
        refusals: &[13, 14],
    },
];

/// B's operands: the first vertex, and on and dc of each row.
const FIRST_AND_PAIRS: [Operand; 1 + 2 * BLOCK] = {
    let mut list = [Outputs; 1 + 2 * BLOCK];
    list[0] = Inputs;
    list
};

/// F's good operands: one output, vertex 0, weight 3.
const FIRST_VERTEX: [u8; 35] = {
    let mut bytes = [0; 35];
    bytes[0] = 1;
    bytes[1] = 1;
    bytes[33] = 3;
    bytes
};

/// The command that begins with this byte, None when the byte is no command.
pub fn find(byte: u8) -> Option<&'static Command> {
    COMMANDS.iter().find(|command| command.byte == byte)
}

impl Command {
    /// The operand bytes.
    pub fn width(&self) -> usize {
        self.operands.iter().map(|operand| operand.bytes()).sum()
    }

    /// The command with its good operands.
    pub fn sample(&self) -> Vec<u8> {
        [&[self.byte], self.good].concat()
    }

    /// Every number that it can be refused with.
    pub fn numbers(&self) -> Vec<u64> {
        let early: &[u64] = if self.operands.is_empty() {
            &[4]
        } else {
            &[4, 5]
        };
        [early, self.refusals].concat()
    }
}

/// The job cut into its commands; None when a byte is no command or operands are missing.
pub fn cut(job: &[u8]) -> Option<Vec<&[u8]>> {
    let mut list = Vec::new();
    let mut rest = job;
    while let Some(&byte) = rest.first() {
        let width = 1 + find(byte)?.width();
        list.push(rest.get(..width)?);
        rest = &rest[width..];
    }
    Some(list)
}

/// Whether one of these stands in a list of whole commands.
pub fn has(job: &[u8], bytes: &[u8]) -> bool {
    let commands = cut(job).expect("a list of whole commands");
    commands.iter().any(|command| bytes.contains(&command[0]))
}

/// The commands that ask about the covers: each writes an answer and leaves all else but the place.
pub const QUERIES: &[u8] = b"LCNV";

/// Whether an A or D stands in a list of whole commands.
pub fn come_and_go(job: &[u8]) -> bool {
    has(job, b"AD")
}

/// A number, low byte first.
pub fn number(bytes: &[u8]) -> u64 {
    bytes
        .iter()
        .rev()
        .fold(0, |x, &byte| x << 8 | u64::from(byte))
}

/// The sets in the answer to L, N or V: all have three bytes before them.
pub fn sets(answer: &[u8]) -> Vec<u64> {
    answer[3..].chunks(8).map(number).collect()
}
