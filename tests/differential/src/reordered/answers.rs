//! The answers of both jobs, one L, C and N after the other.

use super::{Held, Kind, Pair, CUT};
use crate::charged::{charge_set, RIGHT};
use crate::format::{number, sets};
use crate::reference::{self, Outcome};
use crate::walk::{walk, Query, Standing};

pub fn compare(pair: &Pair, outcomes: [&Outcome; 2], held: &mut Held) -> Result<(), String> {
    let walked = |i: usize| walk(&pair.jobs[i], outcomes[i]).ok_or(CUT);
    let (first, second) = (walked(0)?, walked(1)?);
    if first.len() != second.len() {
        return Err("other L, C and N commands".into());
    }
    for (one, other) in first.iter().zip(&second) {
        if one.queries.len() != other.queries.len() {
            return Err("other L, C and N commands".into());
        }
        for (query, again) in one.queries.iter().zip(&other.queries) {
            let answers = [answer(query)?, answer(again)?];
            match query.command[0] {
                b'L' => page(pair, query, answers, held)?,
                b'C' => cheapest(pair, [one, other], answers, held)?,
                b'N' => products(pair, answers, held)?,
                // K9 says nothing of it: a G names the number, whichever candidate has it.
                _ => {}
            }
        }
    }
    Ok(())
}

fn answer<'a>(query: &Query<'a>) -> Result<&'a [u8], String> {
    let refused = |number| format!("refused with {number}");
    query.answer.map_err(refused)
}

/// What a page from a start above 0 has goes by the numbers. From 0 on it has as many sets and says
/// the same of more; without more it is the whole list.
fn page(
    pair: &Pair,
    query: &Query,
    [one, other]: [&[u8]; 2],
    held: &mut Held,
) -> Result<(), String> {
    if number(&query.command[1..9]) > 0 {
        return Ok(());
    }
    let whole = one[2] == 0;
    if one[..3] != other[..3] || (whole && !pair.same(&sets(one), &sets(other))) {
        return Err("the page from 0 on is another one".into());
    }
    held.count(Kind::FromZero, 1);
    Ok(())
}

/// The costs agree, and each set is an irredundant cover of that cost in the other job.
fn cheapest(
    pair: &Pair,
    [one, other]: [&Standing; 2],
    answers: [&[u8]; 2],
    held: &mut Held,
) -> Result<(), String> {
    let [cost, other_cost] = answers.map(|answer| number(&answer[1..3]));
    let [set, other_set] = answers.map(|answer| number(&answer[3..]));
    if cost != other_cost {
        return Err(format!("the cheapest costs {cost} and {other_cost}"));
    }
    let (there, here) = (pair.renumbered(set), pair.back().renumbered(other_set));
    if !is_one_of(other, there, cost) || !is_one_of(one, here, cost) {
        let wrong = "a cheapest is no cover of that cost in the other job";
        return Err(format!("{wrong}: {set} and {other_set}"));
    }
    held.count(Kind::Cheapest, 1);
    held.count_if(Kind::Dear, cost > 0);
    held.count_if(Kind::ForNothing, cost == 0 && set != 0);
    held.count_if(Kind::OtherSet, there != other_set);
    Ok(())
}

/// Whether a set is an irredundant cover of this cost.
fn is_one_of(standing: &Standing, set: u64, cost: u64) -> bool {
    let candidates = &standing.candidates;
    let sums = reference::sums(&standing.table, candidates);
    let mut members = (0..candidates.len()).filter(|i| set >> i & 1 == 1);
    let needed = members.all(|i| !reference::is_cover(&sums, set & !(1 << i)));
    let due = charge_set(RIGHT, standing.prices, candidates, set);
    reference::is_cover(&sums, set) && needed && due == cost
}

fn products(pair: &Pair, [one, other]: [&[u8]; 2], held: &mut Held) -> Result<(), String> {
    let (one, other) = (sets(one), sets(other));
    if !pair.same(&one, &other) {
        return Err("N has other sets".into());
    }
    held.count(Kind::Products, 1);
    held.count_if(Kind::SeveralSets, one.len() > 1);
    Ok(())
}
