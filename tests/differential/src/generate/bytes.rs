//! Bytes that look like a job's.

use crate::format::COMMANDS;
use crate::rng::Rng;

pub fn likely_bytes(rng: &mut Rng, count: usize) -> Vec<u8> {
    (0..count).map(|_| likely_byte(rng)).collect()
}

pub fn likely_byte(rng: &mut Rng) -> u8 {
    match rng.below(4) {
        0 => COMMANDS[rng.below(COMMANDS.len())].byte,
        1 => rng.below(4) as u8,
        2 => 1 << rng.below(8),
        _ => rng.byte(),
    }
}

/// A byte with this many low bits set.
pub fn full(bits: usize) -> u8 {
    ((1u16 << bits) - 1) as u8
}
