//! Sound jobs: the commands stand in their order, and their operands are good.

use super::changes::Candidates;
use super::draft::{draft, plain_case, prices, Draft};
use super::prices::drawn_prices;
use super::queries::{queries, ranged_queries};
use super::ranges::merged;
use super::ready::mixed;
use super::tables::{random_table, rows, sizes, table_of_terms, terms_for, MOST_TERMS};
use super::Case;
use crate::reference::{
    irredundant_covers, of_terms, possibly_cheapest, Candidate, Covers, Prices, Range, Table, Term,
    LONGEST,
};
use crate::rng::Rng;

pub fn case(rng: &mut Rng) -> Case {
    let draft = sound(rng);
    plain_case(rng, &draft)
}

/// A job that keeps to the order of commands. Now and then a wanted cell stays unheld. In every
/// second one the candidates come and go, every third one has prices, every third one without P has
/// blocks, and every third one has ranges.
pub fn sound(rng: &mut Rng) -> Draft {
    let (n, m) = sizes(rng);
    let moving = rng.chance(1, 2);
    let ranged = rng.chance(1, 3);
    let own_prices = rng.chance(1, 3).then(|| drawn_prices(rng));
    let charged = own_prices.map_or(Prices::USUAL, |list| Prices::of(&list));
    let (table, list) = table_and_terms(rng, n, m);
    let mut candidates = match list {
        None => Candidates::of_primes(&table),
        Some(terms) => {
            let list = if rng.chance(1, 3) {
                mixed(rng, &table, &terms)
            } else {
                of_terms(&terms)
            };
            of_list(rng, &table, &list, moving)
        }
    };
    let mut commands = rows(rng, &table);
    let rounds = if moving || ranged {
        rng.between(1, 4)
    } else {
        1
    };
    for round in 0..rounds {
        if moving && (round > 0 || rng.chance(1, 2)) {
            candidates.change(rng);
        }
        commands.extend(candidates.commands());
        if ranged {
            commands.extend(candidates.draw_ranges(rng, charged));
        }
        let ranges = ranged.then(|| candidates.ranges(charged));
        commands.extend(asked(rng, &table, &candidates.standing, ranges));
    }
    let settings = own_prices.map(prices).into_iter().collect();
    draft(n as u8, m as u8, [settings, commands])
}

fn of_list<'a>(
    rng: &mut Rng,
    table: &'a Table,
    list: &[Candidate],
    moving: bool,
) -> Candidates<'a> {
    if moving {
        Candidates::of_changes(rng, table, list)
    } else {
        Candidates::of_list(table, list)
    }
}

/// A table, and terms for it or None where its primes are to be the candidates.
fn table_and_terms(rng: &mut Rng, n: usize, m: usize) -> (Table, Option<Vec<Term>>) {
    if rng.chance(1, 3) {
        return (random_table(rng, n, m), None);
    }
    let (table, mut list) = if rng.chance(1, 2) {
        let table = random_table(rng, n, m);
        let list = terms_for(rng, &table, MOST_TERMS);
        (table, list)
    } else {
        table_of_terms(rng, n, m)
    };
    if rng.chance(1, 12) {
        list.pop();
    }
    (table, Some(list))
}

/// With V among the queries where there are ranges.
fn asked(
    rng: &mut Rng,
    table: &Table,
    standing: &[Candidate],
    ranges: Option<Vec<Range>>,
) -> Vec<Vec<u8>> {
    let covers = match irredundant_covers(table, standing) {
        // Too many for pages here; N comes to an end, mostly with 17.
        Covers::TooMany => return vec![vec![b'N']; rng.below(2)],
        Covers::None => Vec::new(),
        Covers::All(covers) => covers,
    };
    let list = queries(rng, &covers, standing.len());
    let Some(ranges) = ranges else {
        return list;
    };
    let possible = possibly_cheapest(&covers, &ranges);
    let pages = ranged_queries(rng, &possible, standing.len());
    merged(rng, list, pages)
}

/// A sound job that is short enough for a sweep.
pub fn short(rng: &mut Rng) -> Draft {
    loop {
        let draft = sound(rng);
        let need = draft.need().unwrap_or(LONGEST);
        if draft.job().len() <= 120 && need <= 200 {
            return draft;
        }
    }
}
