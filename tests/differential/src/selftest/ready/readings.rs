//! Wrong ways to read the operands of an F, and to try them.

use crate::reference::{Block, HEAVIEST};

/// What an engine takes for the block, by the numbers of inputs and outputs.
pub type Reading = fn((usize, usize), Block) -> Block;

/// The sizes of a job; without a sound I nothing is asked of them.
pub fn sizes(job: &[u8]) -> (usize, usize) {
    match job {
        [b'I', n @ 1..=8, m @ 1..=8, ..] => (usize::from(*n), usize::from(*m)),
        _ => (8, 8),
    }
}

fn low(bits: usize) -> u8 {
    ((1u16 << bits) - 1) as u8
}

/// The block with the vertices that are kept.
fn keep(b: Block, kept: impl Fn(usize) -> bool) -> Block {
    let vertices = (0..256).filter(|&v| b.has(v) && kept(v));
    Block::new(b.outputs, vertices, b.weight)
}

/// The block, or one that is refused with 18.
fn refuse_if(wrong: bool, b: Block) -> Block {
    let weight = if wrong { HEAVIEST + 1 } else { b.weight };
    Block { weight, ..b }
}

fn legal_outputs(m: usize, b: Block) -> bool {
    b.outputs != 0 && b.outputs & !low(m) == 0
}

/// With other outputs, where its own are legal.
fn with_outputs(m: usize, b: Block, outputs: u8) -> Block {
    let legal = legal_outputs(m, b);
    let outputs = if legal { outputs } else { b.outputs };
    Block { outputs, ..b }
}

/// Other cells than it holds.
pub const HOLDING: [(&str, Reading); 10] = [
    ("high bit first", |_, b| Block {
        vertices: b.vertices.map(u8::reverse_bits),
        ..b
    }),
    ("bytes the other way round", |_, mut b| {
        b.vertices.reverse();
        b
    }),
    ("vertices of the next byte", |_, mut b| {
        b.vertices.rotate_left(1);
        b
    }),
    ("vertices of the neighbour byte", |(n, _), b| {
        let other = |v: usize| if n > 3 { v ^ 8 } else { v };
        Block::new(b.outputs, (0..256).filter(|&v| b.has(other(v))), b.weight)
    }),
    ("vertex 255 is left out", |(n, _), b| {
        keep(b, |v| n < 8 || v != 255)
    }),
    ("the first byte of vertices alone", |(n, _), b| {
        keep(b, |v| v < 8 || v >> n > 0)
    }),
    ("a block holds nothing", |(n, _), b| keep(b, |v| v >> n > 0)),
    ("a block holds the cube around it", |(n, _), b| {
        let own: Vec<usize> = (0..256).filter(|&v| b.has(v)).collect();
        let differ = own.iter().fold(0, |bits, v| bits | (v ^ own[0]));
        let near = |v: &usize| own.first().is_some_and(|w| (v ^ w) & !differ == 0);
        let inside = (0..256).filter(|v| near(v) && (v >> n == 0 || b.has(*v)));
        Block::new(b.outputs, inside, b.weight)
    }),
    ("outputs are left aside", |(_, m), b| {
        with_outputs(m, b, low(m))
    }),
    ("the lowest output alone", |(_, m), b| {
        with_outputs(m, b, b.outputs & b.outputs.wrapping_neg())
    }),
];

/// Another border of 18, or another weight.
pub const TRYING: [(&str, Reading); 20] = [
    ("high byte of the weight first", |_, b| Block {
        weight: b.weight.swap_bytes(),
        ..b
    }),
    ("851 is taken", |_, b| Block {
        weight: b.weight - u16::from(b.weight == 851),
        ..b
    }),
    ("up to 1,023 is taken", |_, b| Block {
        weight: if b.weight < 1_024 {
            b.weight.min(HEAVIEST)
        } else {
            b.weight
        },
        ..b
    }),
    ("any weight is taken", |_, b| Block {
        weight: b.weight.min(HEAVIEST),
        ..b
    }),
    ("the weight's low byte alone is tried", |_, b| Block {
        weight: if b.weight > HEAVIEST {
            b.weight & 255
        } else {
            b.weight
        },
        ..b
    }),
    ("850 is refused", |_, b| refuse_if(b.weight == HEAVIEST, b)),
    ("0 is refused", |_, b| refuse_if(b.weight == 0, b)),
    ("256 and more is refused", |_, b| {
        refuse_if(b.weight > 255, b)
    }),
    ("outputs 0 is taken", |(n, _), b| {
        let none = keep(b, |v| v >> n > 0);
        if b.outputs == 0 {
            Block { outputs: 1, ..none }
        } else {
            b
        }
    }),
    ("output m is taken", |(_, m), b| Block {
        outputs: b.outputs & low(m).max(1),
        ..b
    }),
    ("output 7 is taken", |_, b| Block {
        outputs: b.outputs & 0x7f,
        ..b
    }),
    ("several outputs are refused", |_, b| {
        refuse_if(b.outputs.count_ones() > 1, b)
    }),
    ("vertices of 2^n and above are taken", |(n, _), b| {
        keep(b, |v| v >> n == 0)
    }),
    ("vertex 2^n is taken", |(n, _), b| keep(b, |v| v != 1 << n)),
    ("vertex 255 is taken", |(n, _), b| {
        keep(b, |v| n == 8 || v != 255)
    }),
    ("bits above 2^n in the first byte are taken", |(n, _), b| {
        keep(b, |v| v >> n == 0 || v >= 8)
    }),
    ("bytes behind the first are not tried", |(n, _), b| {
        keep(b, |v| v >> n == 0 || v < 8)
    }),
    ("the highest vertex is refused", |(n, _), b| {
        refuse_if(b.has((1 << n) - 1), b)
    }),
    ("a block of no vertex is refused", |_, b| {
        refuse_if(b.vertices == [0; 32], b)
    }),
    ("a block of all vertices is refused", |(n, _), b| {
        refuse_if((0..1 << n).all(|v| b.has(v)), b)
    }),
];
