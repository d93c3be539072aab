//! Ranges for the weights of candidates, legal ones.

use super::draft::range;
use crate::reference::{Range, HEAVIEST};
use crate::rng::Rng;

/// Mostly a little around the weight, so that it decides; often at the borders, at one weight alone,
/// and where the weight is not among them.
pub fn drawn_range(rng: &mut Rng, weight: u16) -> Range {
    let any = |rng: &mut Rng| rng.between(0, HEAVIEST.into()) as u16;
    let (one, other) = match rng.below(16) {
        0 => (0, HEAVIEST),
        1 => (0, 0),
        2 => (HEAVIEST, HEAVIEST),
        3 => (weight, weight),
        4 => (any(rng), any(rng)),
        5 => (weight, HEAVIEST),
        6 => (0, weight),
        7 => {
            let near = rng.pick(&[255, 256, 257, 511, 512, 513, 849]);
            (near, near + rng.below(2) as u16)
        }
        8 | 9 => {
            let value = rng.below(9) as u16;
            (value, value)
        }
        // Above or below the weight.
        10 => (weight + 1, weight + 1 + rng.below(3) as u16),
        11 => (weight.saturating_sub(3), weight.saturating_sub(1)),
        12 | 13 => (rng.below(9) as u16, rng.below(9) as u16),
        _ => (
            weight.saturating_sub(rng.below(4) as u16),
            weight + rng.below(4) as u16,
        ),
    };
    Range {
        low: one.min(other).min(HEAVIEST),
        high: one.max(other).min(HEAVIEST),
    }
}

/// G commands for some of these candidates or for all, in any order, now and then one candidate twice;
/// the ranges are changed alike.
pub fn drawn_ranges(rng: &mut Rng, ranges: &mut [Range], weights: &[u64]) -> Vec<Vec<u8>> {
    let times = rng.pick(&[0, 1, 2, 4, 4]);
    let mut numbers: Vec<usize> = (0..ranges.len()).filter(|_| rng.chance(times, 4)).collect();
    if !numbers.is_empty() && rng.chance(1, 3) {
        numbers.push(rng.pick(&numbers));
    }
    rng.shuffle(&mut numbers);
    let mut list = Vec::new();
    for i in numbers {
        ranges[i] = drawn_range(rng, weights[i] as u16);
        list.push(range(i as u8, ranges[i]));
    }
    list
}

/// Two lists of commands as one, each in its own order.
pub fn merged(rng: &mut Rng, one: Vec<Vec<u8>>, other: Vec<Vec<u8>>) -> Vec<Vec<u8>> {
    let mut list = one;
    let mut at = 0;
    for command in other {
        at = rng.between(at, list.len());
        list.insert(at, command);
        at += 1;
    }
    list
}
