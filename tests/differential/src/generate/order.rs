//! Orders of the T commands of a job: the new place of each among them, by its old one.

use crate::format::cut;
use crate::rng::Rng;

pub type Order = Vec<usize>;

/// The T commands of a job.
pub fn terms_of(job: &[u8]) -> Vec<&[u8]> {
    let mut commands = cut(job).unwrap_or_default();
    commands.retain(|command| command[0] == b'T');
    commands
}

pub fn reversed(count: usize) -> Order {
    (0..count).rev().collect()
}

pub fn rotated(count: usize, by: usize) -> Order {
    (0..count).map(|i| (i + by) % count).collect()
}

pub fn exchanged(count: usize, i: usize, j: usize) -> Order {
    let mut order: Order = (0..count).collect();
    order.swap(i, j);
    order
}

pub fn shuffled(rng: &mut Rng, count: usize) -> Order {
    let mut order: Order = (0..count).collect();
    rng.shuffle(&mut order);
    order
}

/// As the customer sorts his source; equal ones keep their order.
pub fn sorted(terms: &[&[u8]]) -> Order {
    let mut old: Vec<usize> = (0..terms.len()).collect();
    old.sort_by_key(|&i| terms[i]);
    let mut order = vec![0; old.len()];
    for (place, i) in old.into_iter().enumerate() {
        order[i] = place;
    }
    order
}

/// Every order: the last one comes in at each place of every order of the others.
pub fn every(count: usize) -> Vec<Order> {
    if count == 0 {
        return vec![Vec::new()];
    }
    let mut list = Vec::new();
    for others in every(count - 1) {
        for place in 0..count {
            let behind = |&i: &usize| i + usize::from(i >= place);
            let mut order: Order = others.iter().map(behind).collect();
            order.push(place);
            list.push(order);
        }
    }
    list
}

/// The pairs of equal terms.
pub fn equals(terms: &[&[u8]]) -> Vec<(usize, usize)> {
    let all = 0..terms.len();
    let pairs = all.flat_map(|j| (0..j).map(move |i| (i, j)));
    pairs.filter(|&(i, j)| terms[i] == terms[j]).collect()
}

/// One of these for at least one term.
pub fn drawn_order(rng: &mut Rng, terms: &[&[u8]]) -> Order {
    let count = terms.len();
    let equals = equals(terms);
    match rng.below(8) {
        0 => reversed(count),
        1 => rotated(count, rng.below(count)),
        2 => sorted(terms),
        3 => exchanged(count, rng.below(count), rng.below(count)),
        4 if !equals.is_empty() => {
            let (i, j) = rng.pick(&equals);
            exchanged(count, i, j)
        }
        _ => shuffled(rng, count),
    }
}
