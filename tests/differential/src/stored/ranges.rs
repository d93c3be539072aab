//! V over the table, the candidates and the ranges of a stored job.

use super::answers::is_a_page;
use super::{Depth, Problem, Query};
use crate::exact::{GivenUp, Search};
use crate::format::{number, sets};
use crate::reference::{favouring, possibly_cheapest};

/// More covers are not compared with each other.
const MOST: usize = 1_500;

/// Where all covers are few the page is that of the list by them. Else each set is tried at the choice
/// that favours it, where no cover may be cheaper; that none is left out is not seen there.
pub fn check_ranged_page(
    problem: &Problem,
    search: &mut Search,
    query: &Query,
) -> Result<Depth, String> {
    is_a_page(problem, query)?;
    match search.covers_from(0, MOST + 1) {
        Ok(covers) if covers.len() <= MOST => {
            has_these(query, &possibly_cheapest(&covers, &problem.ranges))?;
            Ok(Depth::Full)
        }
        _ => {
            favoured(problem, &sets(&query.answer))?;
            Ok(Depth::Part)
        }
    }
}

fn has_these(query: &Query, list: &[u64]) -> Result<(), String> {
    let (start, count) = (number(&query.command[1..9]), usize::from(query.command[9]));
    let above = &list[list.partition_point(|&set| set < start)..];
    let fit = &above[..above.len().min(count)];
    let more = u8::from(fit.len() < above.len());
    if sets(&query.answer) != fit || query.answer[2] != more {
        return Err(format!("V from {start} on has other sets"));
    }
    Ok(())
}

/// As far as the search goes: the first that is too much for it ends it.
fn favoured(problem: &Problem, sets: &[u64]) -> Result<(), String> {
    for &set in sets {
        let weights = favouring(&problem.ranges, set);
        let costs: Vec<u64> = weights.into_iter().map(u64::from).collect();
        match Search::new(&problem.sums, &costs).none_cheaper(set) {
            Ok(true) => {}
            Ok(false) => return Err(format!("V has set {set}, which is never the cheapest")),
            Err(GivenUp) => break,
        }
    }
    Ok(())
}
