//! Drawn tables: each quicker way of the reference against the definition itself.

use super::Checks;
use crate::exact::Search;
use crate::generate::{drawn_prices, mixed, random_table, terms_for};
use crate::reference::{self, of_terms, Candidate, Covers, Presence, Prices, Table};
use crate::rng::Rng;

pub fn run(checks: &mut Checks, rng: &mut Rng) {
    for _ in 0..200 {
        two_ways(checks, rng);
    }
    for _ in 0..300 {
        drawn_rival(checks, rng, Prices::USUAL);
        let prices = any_prices(rng);
        let free = Prices {
            connection: 0,
            ..prices
        };
        drawn_rival(checks, rng, free);
    }
    let mut undercut = false;
    for _ in 0..300 {
        undercut |= rival_with_connections(checks, rng);
    }
    checks.check("no rival is cheaper by connections", undercut);
}

fn any_prices(rng: &mut Rng) -> Prices {
    Prices::of(&drawn_prices(rng))
}

/// Primes and covers by both ways.
fn two_ways(checks: &mut Checks, rng: &mut Rng) {
    let (n, m) = (rng.between(1, 4), rng.between(1, 4));
    let table: Table = random_table(rng, n, m);
    checks.check(
        "primes two ways",
        table.primes_by_terms() == table.primes_by_cubes(),
    );
    let terms = terms_for(rng, &table, 10);
    let candidates = if rng.chance(1, 2) {
        mixed(rng, &table, &terms)
    } else {
        of_terms(&terms)
    };
    let sums = reference::sums(&table, &candidates);
    by_points(checks, &table, &candidates, &sums);
    if !sums.contains(&0) {
        let by_subsets = reference::covers_by_subsets(candidates.len(), &sums);
        checks.check(
            "covers two ways",
            reference::covers_by_products(&sums) == Some(by_subsets.clone()),
        );
        second_search(checks, rng, &candidates, &sums, &by_subsets);
        let all = reference::irredundant_covers(&table, &candidates);
        checks.check("covers", all == Covers::All(by_subsets));
    }
}

/// The presence function of document 000 against the cover test, at every set.
fn by_points(checks: &mut Checks, table: &Table, candidates: &[Candidate], sums: &[u64]) {
    let presence = Presence::new(table, candidates);
    let seen = presence.of_every_set(Presence::presence);
    let cover = |s: usize| reference::is_cover(sums, s as u64);
    let same = (0..seen.len()).all(|s| seen[s] == cover(s));
    checks.check(
        "points are cells",
        reference::points(table) == table.wanted_cells(),
    );
    checks.check("presence is the cover test", same);
    checks.check("presence rises", reference::implicants(&seen) == seen);
    let covers = reference::covers_by_subsets(candidates.len(), sums);
    checks.check(
        "prime implicants",
        reference::prime_implicants(&seen) == covers,
    );
    // Lemma 1 of the whole system: with its delta the document never refuses.
    checks.check("delta", presence.presence_with_delta(presence.all()));
}

/// The search for the stored jobs finds the same covers, from any start, and the same cheapest at
/// drawn prices.
fn second_search(
    checks: &mut Checks,
    rng: &mut Rng,
    candidates: &[Candidate],
    sums: &[u64],
    covers: &[u64],
) {
    let prices = any_prices(rng);
    let costs: Vec<u64> = candidates.iter().map(|c| prices.cost_of(c)).collect();
    let mut search = Search::new(sums, &costs);
    let start = rng.below(1 << candidates.len()) as u64;
    let most = rng.below(6);
    let above = covers.iter().copied().filter(|&set| set >= start);
    let expected: Vec<u64> = above.take(most).collect();
    let found = [
        search.covers_from(0, usize::MAX),
        search.covers_from(start, most),
    ];
    let [Ok(all), Ok(some)] = found else {
        return checks.check("the second search is given up", false);
    };
    checks.check("covers by the second search", all == covers);
    checks.check("a page by the second search", some == expected);
    let (_, first) = reference::cheapest(prices, candidates, covers);
    let right = |&set: &u64| matches!(search.is_cheapest(set), Ok(yes) if yes == (set == first));
    checks.check("cheapest by the second search", covers.iter().all(right));
}

/// At connection price 0 the cheapest cover by primes costs as little as any list of legal terms.
fn drawn_rival(checks: &mut Checks, rng: &mut Rng, prices: Prices) {
    let (least, cost) = rival_and_cheapest(rng, prices);
    checks.check("drawn rival", least == cost);
}

/// At a connection price above 0 it may cost more, and never less; whether it does.
fn rival_with_connections(checks: &mut Checks, rng: &mut Rng) -> bool {
    let prices = Prices {
        connection: rng.between(1, 50) as u8,
        ..any_prices(rng)
    };
    let (least, cost) = rival_and_cheapest(rng, prices);
    checks.check("drawn rival with connections", least <= cost);
    least < cost
}

/// The rival's least cost over a drawn table, and the cheapest by its primes.
fn rival_and_cheapest(rng: &mut Rng, prices: Prices) -> (u64, u64) {
    let (n, m) = (rng.between(1, 3), rng.between(1, 2));
    let table = random_table(rng, n, m);
    let primes = of_terms(&table.primes());
    let Covers::All(covers) = reference::irredundant_covers(&table, &primes) else {
        unreachable!("the primes hold each wanted cell, and are few");
    };
    let (cost, _) = reference::cheapest(prices, &primes, &covers);
    (reference::least_cost(&table, prices), cost)
}
