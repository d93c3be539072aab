//! A stored job at other prices.

use super::answers::check_cheapest;
use super::heads::with_prices;
use super::{ask, check_ranged_page, Depth, Problem, Query};
use crate::exact::Search;
use crate::format;

/// Other prices at which a job is asked: nothing counts, the terms alone, the literals and the
/// connections, and all of them.
pub const PRICES: [[u8; 3]; 4] = [[0, 0, 0], [9, 0, 0], [0, 3, 2], [50, 7, 11]];

/// How many C commands were checked how far at other prices.
#[derive(Default)]
pub struct Cheapest {
    pub full: usize,
    pub part: usize,
}

/// By K6 the pages stay; the cheapest is checked as far as the search goes, and so is V, which goes by
/// the prices where no G has come.
pub fn at_prices(
    problem: &Problem,
    prices: [u8; 3],
    asked: &[&[u8]],
    answered: &[Query],
    counts: &mut Cheapest,
) -> Result<(), String> {
    let head = with_prices(problem, prices);
    let commands = format::cut(&head).expect("a list of whole commands");
    let other = super::problem(&commands)?;
    let mut search = Search::new(&other.sums, &other.costs);
    for (query, before) in ask(&head, asked)?.iter().zip(answered) {
        if query.command[0] == b'C' {
            match check_cheapest(&other, &mut search, &query.answer)? {
                Depth::Full => counts.full += 1,
                _ => counts.part += 1,
            }
        } else if query.command[0] == b'V' {
            check_ranged_page(&other, &mut search, query)?;
        } else if query != before {
            return Err("a page is another one".into());
        }
    }
    Ok(())
}
