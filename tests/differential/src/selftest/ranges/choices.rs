//! The list by every choice of weights, against the quicker way and against the one that the answers
//! are held to.

use super::Checks;
use crate::generate::{drawn_prices, mixed, random_table, terms_for};
use crate::ranged::is_listed;
use crate::reference::{self, by_choices, by_favour, possibly_cheapest, Covers, Range};
use crate::rng::Rng;

pub fn run(checks: &mut Checks, rng: &mut Rng) {
    every_range(checks);
    by_hand(checks);
    for _ in 0..400 {
        drawn(checks, rng);
    }
}

/// All ways to the same list.
fn same(covers: &[u64], ranges: &[Range]) -> bool {
    let by_definition = by_choices(covers, ranges);
    let ends: Vec<[u64; 2]> = ranges
        .iter()
        .map(|range| [range.low.into(), range.high.into()])
        .collect();
    let mut answered = covers.to_vec();
    answered.retain(|&set| is_listed(&ends, covers, set));
    by_favour(covers, ranges) == by_definition
        && possibly_cheapest(covers, ranges) == by_definition
        && answered == by_definition
}

/// Three candidates with every range from 0 to 3 each, over lists of sets none of which contains
/// another.
fn every_range(checks: &mut Checks) {
    let all: Vec<Range> = (0..4)
        .flat_map(|low| (low..4).map(move |high| Range { low, high }))
        .collect();
    for covers in [
        &[0][..],
        &[1, 2],
        &[1, 2, 4],
        &[1, 6],
        &[3, 4],
        &[3, 5, 6],
        &[3, 5],
        &[7],
    ] {
        let mut right = true;
        for &a in &all {
            for &b in &all {
                right &= all.iter().all(|&c| same(covers, &[a, b, c]));
            }
        }
        checks.check(&format!("every range over {covers:?}"), right);
    }
}

/// Two sets that share a member, and a choice between the ends alone that no end shows: none is
/// needed, as the favouring choice is at the ends.
fn by_hand(checks: &mut Checks) {
    let range = |low, high| Range { low, high };
    let ranges = [range(0, 9), range(2, 4), range(3, 3)];
    checks.check(
        "by choices, 3 and 5",
        by_choices(&[3, 5], &ranges) == [3, 5],
    );
    let ranges = [range(0, 9), range(4, 5), range(3, 3)];
    checks.check("by choices, 5 alone", by_choices(&[3, 5], &ranges) == [5]);
    let weights = reference::favouring(&ranges, 3);
    checks.check("favouring 3", weights == [0, 4, 3]);
    let weights = reference::favouring(&ranges, 5);
    checks.check("favouring 5", weights == [0, 5, 3]);
}

/// Drawn tables with up to six candidates and narrow ranges, ties among them.
fn drawn(checks: &mut Checks, rng: &mut Rng) {
    let (n, m) = (rng.between(1, 3), rng.between(1, 2));
    let table = random_table(rng, n, m);
    let terms = terms_for(rng, &table, 6);
    let mut candidates = mixed(rng, &table, &terms);
    candidates.truncate(6);
    let Covers::All(covers) = reference::irredundant_covers(&table, &candidates) else {
        return;
    };
    let prices = reference::Prices::of(&drawn_prices(rng));
    let near = rng.chance(1, 2);
    let mut ranges = Vec::new();
    for c in &candidates {
        let own = prices.cost_of(c) as u16;
        let low = if near {
            own.min(847)
        } else {
            rng.below(5) as u16
        };
        let high = low + rng.below(4) as u16;
        ranges.push(Range { low, high });
    }
    checks.check("drawn ranges", same(&covers, &ranges));
    let no_ranges: Vec<Range> = candidates
        .iter()
        .map(|c| Range::at(prices.cost_of(c)))
        .collect();
    let cost = |&&set: &&u64| reference::cost(prices, &candidates, set);
    let (least, first) = reference::cheapest(prices, &candidates, &covers);
    let of_least: Vec<u64> = covers
        .iter()
        .filter(|set| cost(set) == least)
        .copied()
        .collect();
    let list = possibly_cheapest(&covers, &no_ranges);
    checks.check("equal ends", list == of_least && list[0] == first);
}
