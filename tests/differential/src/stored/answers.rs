//! The answer to one query of a stored job, held to the definitions and, as far as it goes, to the
//! search.

use super::{Depth, Problem, Query};
use crate::exact::{GivenUp, Search};
use crate::format::{number, sets};
use crate::reference::{self, Products};

/// The rules of a page that need no search: irredundant covers that rise from the start, no more than
/// asked for, and more is told of a full page alone.
pub fn is_a_page(problem: &Problem, query: &Query) -> Result<(), String> {
    let (start, count) = (number(&query.command[1..9]), query.command[9]);
    let (sets, more) = (sets(&query.answer), query.answer[2]);
    let rising = sets.windows(2).all(|two| two[0] < two[1]);
    if !rising || sets.first().is_some_and(|&set| set < start) {
        return Err("the sets do not rise from the start".into());
    }
    if let Some(set) = sets.iter().find(|&&set| !irredundant(problem, set)) {
        return Err(format!("set {set} is no irredundant cover"));
    }
    let full = sets.len() == usize::from(count);
    if sets.len() > usize::from(count) || more > 1 || (more == 1 && !full) {
        return Err("the page has too many or too few sets".into());
    }
    Ok(())
}

pub fn check_page(problem: &Problem, search: &mut Search, query: &Query) -> Result<Depth, String> {
    is_a_page(problem, query)?;
    let (start, count) = (number(&query.command[1..9]), query.command[9]);
    let (sets, more) = (sets(&query.answer), query.answer[2]);
    match search.covers_from(start, usize::from(count) + 1) {
        Err(GivenUp) => Ok(Depth::Part),
        Ok(found) => {
            let above = found.len() > usize::from(count);
            let expected = &found[..found.len().min(usize::from(count))];
            if sets != expected || above != (more == 1) {
                return Err(format!("the page from {start} on is not the search's"));
            }
            Ok(Depth::Full)
        }
    }
}

pub fn check_cheapest(
    problem: &Problem,
    search: &mut Search,
    answer: &[u8],
) -> Result<Depth, String> {
    let (cost, set) = (number(&answer[1..3]), number(&answer[3..]));
    if !irredundant(problem, set) {
        return Err(format!("the cheapest, {set}, is no irredundant cover"));
    }
    if cost != reference::cost(problem.prices, &problem.candidates, set) {
        return Err(format!("the cheapest does not cost {cost}"));
    }
    match search.is_cheapest(set) {
        Err(GivenUp) => Ok(Depth::Part),
        Ok(true) => Ok(Depth::Full),
        Ok(false) => Err("another cover is cheaper or comes first".into()),
    }
}

/// No search is needed: the reference multiplies, too.
pub fn check_products(problem: &Problem, answer: &[u8]) -> Result<Depth, String> {
    match reference::products(&problem.table, &problem.candidates) {
        Products::All(list) if list == sets(answer) => Ok(Depth::Full),
        _ => Err("the products are not the reference's".into()),
    }
}

/// Each wanted cell is held by a member, and each member alone holds some wanted cell.
fn irredundant(problem: &Problem, set: u64) -> bool {
    let known = problem.candidates.len() == 64 || set >> problem.candidates.len() == 0;
    let held: Vec<u64> = problem.sums.iter().map(|sum| sum & set).collect();
    let needed = |i: u32| held.contains(&(1 << i));
    known && !held.contains(&0) && (0..64).all(|i| set >> i & 1 == 0 || needed(i))
}
