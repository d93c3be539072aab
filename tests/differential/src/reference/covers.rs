//! Irredundant covers and their costs, by their definitions.

use super::candidate::Candidate;
use super::prices::Prices;
use super::table::Table;

/// Up to this many candidates every subset is tried.
const MOST_BY_SUBSETS: usize = 14;
/// Above that the sums are multiplied out, as long as no more than this many products stand.
const MOST_PRODUCTS: usize = 2_100;

/// What the candidates make of the table.
#[derive(Clone, PartialEq, Eq, Debug)]
pub enum Covers {
    /// A wanted cell is held by no candidate.
    None,
    /// Every irredundant cover, rising.
    All(Vec<u64>),
    /// More work than the reference takes on.
    TooMany,
}

pub fn irredundant_covers(table: &Table, candidates: &[Candidate]) -> Covers {
    let sums = sums(table, candidates);
    if sums.contains(&0) {
        Covers::None
    } else if candidates.len() <= MOST_BY_SUBSETS {
        Covers::All(covers_by_subsets(candidates.len(), &sums))
    } else {
        covers_by_products(&sums).map_or(Covers::TooMany, Covers::All)
    }
}

/// For each wanted cell the candidates that hold it, as a set. Equal ones say the same once.
pub fn sums(table: &Table, candidates: &[Candidate]) -> Vec<u64> {
    let holders = |(v, j)| {
        let holding = candidates.iter().enumerate().filter(|(_, c)| c.holds(v, j));
        holding.map(|(i, _)| 1u64 << i).sum()
    };
    let mut sums: Vec<u64> = table.wanted_cells().into_iter().map(holders).collect();
    sums.sort_unstable();
    sums.dedup();
    sums
}

/// Each wanted cell is held by a member.
pub fn is_cover(sums: &[u64], set: u64) -> bool {
    sums.iter().all(|sum| sum & set != 0)
}

/// Tries every subset: a cover without a cover among its proper subsets.
pub fn covers_by_subsets(count: usize, sums: &[u64]) -> Vec<u64> {
    let sets = 1usize << count;
    let mut cover_at_or_below = vec![false; sets];
    let mut found = Vec::new();
    for s in 0..sets {
        // Each proper subset lies in s without some one member.
        let below = (0..count).any(|i| s >> i & 1 == 1 && cover_at_or_below[s & !(1 << i)]);
        let cover = is_cover(sums, s as u64);
        cover_at_or_below[s] = cover || below;
        if cover && !below {
            found.push(s as u64);
        }
    }
    found
}

/// Multiplies the sums out and drops each product that another one divides.
pub fn covers_by_products(sums: &[u64]) -> Option<Vec<u64>> {
    let mut products = vec![0u64];
    for &sum in sums {
        let mut next: Vec<u64> = Vec::new();
        for &product in &products {
            if product & sum != 0 {
                next.push(product);
            } else {
                next.extend(
                    (0..64)
                        .filter(|i| sum >> i & 1 == 1)
                        .map(|i| product | 1 << i),
                );
            }
        }
        next.sort_unstable_by_key(|set| (set.count_ones(), *set));
        next.dedup();
        products = Vec::new();
        for set in next {
            if !products.iter().any(|smaller| smaller & !set == 0) {
                products.push(set);
            }
            if products.len() > MOST_PRODUCTS {
                return None;
            }
        }
    }
    products.sort_unstable();
    Some(products)
}

pub fn cost(prices: Prices, candidates: &[Candidate], set: u64) -> u64 {
    let members = candidates
        .iter()
        .enumerate()
        .filter(|(i, _)| set >> i & 1 == 1);
    members.map(|(_, c)| prices.cost_of(c)).sum()
}

/// The least cost and, among equals, the smallest set. `covers` rises and is not empty.
pub fn cheapest(prices: Prices, candidates: &[Candidate], covers: &[u64]) -> (u64, u64) {
    covers
        .iter()
        .map(|&set| (cost(prices, candidates, set), set))
        .min()
        .expect("a cover has an irredundant one below")
}
