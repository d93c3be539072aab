//! N by the words of K8: the wanted cells come by vertex, then output, and at each every product
//! is joined with every candidate that holds the cell.

use super::candidate::Candidate;
use super::table::Table;

/// More products than this at some cell are refusal 17.
pub const MOST_PRODUCTS: usize = 1_024;
/// Up to this many joins each is tried against each other one.
const MOST_BY_PAIRS: usize = 512;

/// What the candidates make of the table.
#[derive(Clone, PartialEq, Eq, Debug)]
pub enum Products {
    /// A wanted cell is held by no candidate.
    None,
    /// More than 1,024 remain at some cell.
    TooMany,
    /// Those that remain at the last cell, rising.
    All(Vec<u64>),
}

/// No cell is passed over, whatever the others say: 17 goes by what remains at each of them.
pub fn products(table: &Table, candidates: &[Candidate]) -> Products {
    let cells = holders(table, candidates);
    if cells.iter().any(|holders| holders.is_empty()) {
        return Products::None;
    }
    // The product with no members.
    let mut products = vec![0];
    for holders in &cells {
        match next(&products, holders) {
            Some(kept) => products = kept,
            None => return Products::TooMany,
        }
    }
    Products::All(products)
}

/// For each wanted cell, by vertex, then output, the candidates that hold it, each as a set of its
/// own.
pub fn holders(table: &Table, candidates: &[Candidate]) -> Vec<Vec<u64>> {
    let of_cell = |(v, j)| {
        let holding = (0..candidates.len()).filter(|&i| candidates[i].holds(v, j));
        holding.map(|i| 1 << i).collect()
    };
    table.wanted_cells().into_iter().map(of_cell).collect()
}

/// The products that remain at a cell, rising; None when they are more than 1,024.
fn next(products: &[u64], holders: &[u64]) -> Option<Vec<u64>> {
    if products.len() * holders.len() <= MOST_BY_PAIRS {
        next_by_pairs(products, holders)
    } else {
        next_by_size(products, holders)
    }
}

/// The definition itself: all joins, one copy of each, and of these the ones that contain no other.
pub fn next_by_pairs(products: &[u64], holders: &[u64]) -> Option<Vec<u64>> {
    let joined = joined(products, holders);
    let contains_other = |p: u64| joined.iter().any(|&q| q != p && q & !p == 0);
    let mut kept = joined.clone();
    kept.retain(|&p| !contains_other(p));
    (kept.len() <= MOST_PRODUCTS).then_some(kept)
}

/// Every product with every candidate that holds the cell: one copy of each, rising.
pub fn joined(products: &[u64], holders: &[u64]) -> Vec<u64> {
    let of_product = |p: &u64| holders.iter().map(|h| p | h).collect::<Vec<_>>();
    let mut list: Vec<u64> = products.iter().flat_map(of_product).collect();
    list.sort_unstable();
    list.dedup();
    list
}

/// For many: a product that has a holder among its members is one of its joins, and the others
/// contain it. Those with fewer members come first, so that what is kept stays, and the first one
/// too many ends it.
pub fn next_by_size(products: &[u64], holders: &[u64]) -> Option<Vec<u64>> {
    let any_holder = holders.iter().fold(0, |any, h| any | h);
    let mut list = Vec::new();
    for &p in products {
        if p & any_holder != 0 {
            list.push(p);
        } else {
            list.extend(holders.iter().map(|h| p | h));
        }
    }
    list.sort_unstable_by_key(|p| (p.count_ones(), *p));
    list.dedup();
    let mut kept: Vec<u64> = Vec::new();
    for p in list {
        if !kept.iter().any(|q| q & !p == 0) {
            kept.push(p);
        }
        if kept.len() > MOST_PRODUCTS {
            return None;
        }
    }
    kept.sort_unstable();
    Some(kept)
}
