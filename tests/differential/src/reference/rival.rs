//! The rival of demand 3: any list of legal terms that represents the table, not of primes only.

use super::candidate::{of_terms, Candidate};
use super::prices::Prices;
use super::table::{Table, Term};

/// Larger tables have too many sets of wanted cells.
const MOST_CELLS: usize = 16;

/// The rival's least cost where he is met: by K6 at connection price 0 only, as a prime may drive
/// more outputs than he pays for.
pub fn rival(table: &Table, prices: Prices, candidates: &[Candidate]) -> Option<u64> {
    let met = prices.connection == 0;
    met.then(|| rival_at_any_price(table, prices, candidates))?
}

/// The same without K6's condition: where the table is small and the candidates are the primes.
pub fn rival_at_any_price(table: &Table, prices: Prices, candidates: &[Candidate]) -> Option<u64> {
    let small = table.cells().count() <= MOST_CELLS;
    (small && are_primes(table, candidates)).then(|| least_cost(table, prices))
}

/// Every prime stands among the candidates and nothing else does; order and repeats are free. A
/// block is no prime, whatever it holds: he draws product terms.
fn are_primes(table: &Table, candidates: &[Candidate]) -> bool {
    let primes = of_terms(&table.primes());
    primes.iter().all(|p| candidates.contains(p)) && candidates.iter().all(|c| primes.contains(c))
}

/// The least cost over all lists that represent the table, which has few wanted cells.
///
/// For each set of wanted cells it keeps the least cost of a list that holds just these. A further
/// term never makes the set's number smaller, so each entry is final when its turn comes.
pub fn least_cost(table: &Table, prices: Prices) -> u64 {
    let wanted = table.wanted_cells();
    let held = |t: &Term| {
        let places = (0..wanted.len()).filter(|&i| t.holds(wanted[i].0, wanted[i].1));
        places.map(|i| 1usize << i).sum::<usize>()
    };
    let legal = table.legal_terms();
    let terms: Vec<(usize, u64)> = legal.iter().map(|t| (held(t), prices.cost(t))).collect();
    let mut least = vec![u64::MAX; 1 << wanted.len()];
    least[0] = 0;
    for before in 0..least.len() {
        for (held, cost) in &terms {
            let with = before | held;
            least[with] = least[with].min(least[before].saturating_add(*cost));
        }
    }
    least[least.len() - 1]
}
