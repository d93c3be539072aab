//! Ways to V's list that are wrong. In every run each of them must have been seen to be: it gives some
//! V of the drawn jobs other sets.

use crate::charged::{charge_set, RIGHT};
use crate::walk::{Ends, Standing};

/// Whether a set is listed: the ranges, the weights without ranges, the covers, and the set.
pub type Tries = fn(&[Ends], &[u64], &[u64], u64) -> bool;

/// The sum over the members of a set, by what each weighs.
fn sum(set: u64, weigh: impl Fn(usize) -> u64) -> u64 {
    (0..64).filter(|i| set >> i & 1 == 1).map(weigh).sum()
}

/// At one choice, given as the end of members and of others: 0 is low and 1 is high.
fn at(ranges: &[Ends], covers: &[u64], set: u64, [members, others]: [usize; 2]) -> bool {
    let end = |i: usize| if set >> i & 1 == 1 { members } else { others };
    let weigh = |i: usize| ranges[i][end(i)];
    covers.iter().all(|&t| sum(set, weigh) <= sum(t, weigh))
}

pub const WRONG: [(&str, Tries); 16] = [
    ("members at high", |r, _, c, s| at(r, c, s, [1, 1])),
    ("members at high, others at low", |r, _, c, s| {
        at(r, c, s, [1, 0])
    }),
    ("all at low", |r, _, c, s| at(r, c, s, [0, 0])),
    ("all at low or all at high", |r, _, c, s| {
        at(r, c, s, [0, 0]) || at(r, c, s, [1, 1])
    }),
    ("by the weights", |_, w, c, s| {
        c.iter().all(|&t| sum(s, |i| w[i]) <= sum(t, |i| w[i]))
    }),
    ("every irredundant cover", |_, _, _, _| true),
    ("a tie left off", |r, _, c, s| {
        let cost = |t| favoured(r, s, t);
        c.iter().all(|&t| t == s || cost(s) < cost(t))
    }),
    ("the smallest among equals alone", |r, _, c, s| {
        let cost = |t| favoured(r, s, t);
        c.iter().all(|&t| (cost(s), s) <= (cost(t), t))
    }),
    ("the last among equals alone", |r, _, c, s| {
        let cost = |t| favoured(r, s, t);
        c.iter().all(|&t| (cost(s), !s) <= (cost(t), !t))
    }),
    ("shared members at high in the other", |r, _, c, s| {
        c.iter()
            .all(|&t| t == s || sum(s, |i| r[i][0]) <= sum(t, |i| r[i][1]))
    }),
    (
        "the least of all at high not passed at low",
        |r, _, c, s| {
            let least = c.iter().map(|&t| sum(t, |i| r[i][1])).min();
            least.is_some_and(|least| sum(s, |i| r[i][0]) < least)
        },
    ),
    ("in the middle", |r, _, c, s| {
        let weigh = |i: usize| (r[i][0] + r[i][1]) / 2;
        c.iter().all(|&t| sum(s, weigh) <= sum(t, weigh))
    }),
    ("for every choice", |r, _, c, s| {
        let beside = |a: u64, b: u64, end: usize| sum(a & !b, |i| r[i][end]);
        c.iter().all(|&t| beside(s, t, 1) <= beside(t, s, 0))
    }),
    ("low ends left aside", |r, w, c, s| {
        let weigh = |i: usize| if s >> i & 1 == 1 { w[i] } else { r[i][1] };
        c.iter().all(|&t| sum(s, weigh) <= sum(t, weigh))
    }),
    ("high ends left aside", |r, w, c, s| {
        let weigh = |i: usize| if s >> i & 1 == 1 { r[i][0] } else { w[i] };
        c.iter().all(|&t| sum(s, weigh) <= sum(t, weigh))
    }),
    ("covers with as many members alone", |r, _, c, s| {
        let cost = |t| favoured(r, s, t);
        let mut alike = c.iter().filter(|t| t.count_ones() == s.count_ones());
        alike.all(|&t| cost(s) <= cost(t))
    }),
];

/// The cost of a set at the choice that favours another.
fn favoured(ranges: &[Ends], other: u64, set: u64) -> u64 {
    sum(set, |i| ranges[i][usize::from(other >> i & 1 == 0)])
}

/// The list in one of these ways.
pub fn list(tries: Tries, standing: &Standing, covers: &[u64]) -> Vec<u64> {
    let candidates = &standing.candidates;
    let weight = |i: usize| charge_set(RIGHT, standing.prices, candidates, 1 << i);
    let weights: Vec<u64> = (0..candidates.len()).map(weight).collect();
    let listed = |&set: &u64| tries(&standing.ranges, &weights, covers, set);
    covers.iter().copied().filter(listed).collect()
}
