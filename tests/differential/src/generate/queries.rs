//! Queries behind a table and its candidates, whose covers are known.

use super::draft::{page, ranged_page};
use crate::rng::Rng;

fn any_count(rng: &mut Rng) -> u8 {
    match rng.below(8) {
        0 => 0,
        1 => 255,
        2 => rng.byte(),
        3 | 4 => 1,
        _ => rng.below(9) as u8,
    }
}

fn any_start(rng: &mut Rng, covers: &[u64], candidates: usize) -> u64 {
    let end = if candidates < 64 {
        1 << candidates
    } else {
        0u64
    };
    let near = if covers.is_empty() {
        0
    } else {
        rng.pick(covers)
    };
    match rng.below(12) {
        0 => 0,
        1 => u64::MAX,
        2 => rng.next(),
        3 => end,
        4 => end.wrapping_sub(1),
        5 => end.wrapping_add(rng.below(100) as u64),
        6 => near,
        7 | 8 => near.wrapping_add(1),
        9 => near.wrapping_sub(1),
        10 => rng.next() >> rng.below(64),
        _ => rng.next() & end.wrapping_sub(1),
    }
}

/// Pages with proper starts: each goes on one above the last set of the one before.
fn paging(rng: &mut Rng, covers: &[u64], page: fn(u64, u8) -> Vec<u8>) -> Vec<Vec<u8>> {
    let mut list = Vec::new();
    let mut got = if rng.chance(1, 4) {
        rng.below(covers.len())
    } else {
        0
    };
    let usual = rng.between(1, 4) as u8;
    for _ in 0..rng.between(1, 12) {
        let start = if got == 0 { 0 } else { covers[got - 1] + 1 };
        let count = if rng.chance(1, 5) {
            any_count(rng)
        } else {
            usual
        };
        list.push(page(start, count));
        if rng.chance(1, 8) {
            list.push(vec![b'C']);
        }
        if rng.chance(1, 8) {
            list.push(vec![b'N']);
        }
        got = covers.len().min(got + usize::from(count));
        if got == covers.len() {
            break;
        }
    }
    list
}

pub fn queries(rng: &mut Rng, covers: &[u64], candidates: usize) -> Vec<Vec<u8>> {
    let mut list = vec![vec![b'N']; usize::from(rng.chance(1, 8))];
    if !covers.is_empty() && rng.chance(1, 2) {
        list.extend(paging(rng, covers, page));
    }
    for _ in 0..rng.below(4) {
        let start = any_start(rng, covers, candidates);
        let count = any_count(rng);
        list.push(match rng.below(8) {
            0 | 1 => vec![b'C'],
            2 => vec![b'N'],
            _ => page(start, count),
        });
    }
    if rng.chance(2, 3) {
        list.push(vec![b'C']);
    }
    if rng.chance(1, 4) {
        list.push(vec![b'N']);
    }
    list
}

/// V commands over its own list: pages with proper starts and with arbitrary ones.
pub fn ranged_queries(rng: &mut Rng, list: &[u64], candidates: usize) -> Vec<Vec<u8>> {
    let mut commands = Vec::new();
    if !list.is_empty() && rng.chance(2, 3) {
        commands.extend(paging(rng, list, ranged_page));
    }
    for _ in 0..rng.between(usize::from(commands.is_empty()), 2) {
        let start = any_start(rng, list, candidates);
        commands.push(ranged_page(start, any_count(rng)));
    }
    commands
}
