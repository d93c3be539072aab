//! What K11 says of each V that is answered, asked of its answer: its first byte, the rules of a page,
//! and which sets it has. Over few candidates every irredundant cover is compared with every other, and
//! where there are few choices of weights each one is tried. Where all ends are equal the sets are
//! those of least cost; C's set is among them where its weights are within the ranges; and pages that
//! go on where the one before ends, joined until no more is told, are the list.
//! The reference's way to the list is left aside; K11 is read here a second time.

mod wrong;

pub use wrong::WRONG;

use crate::charged::{charge_set, RIGHT};
use crate::format::{number, sets};
use crate::reference::{self, Outcome, Presence};
use crate::walk::{walk, Ends, Query, Standing};

/// Up to this many candidates every set is tried.
const FEW: usize = 10;
/// Up to this many choices of weights are tried.
const FEW_CHOICES: u64 = 300;

/// What a job was held to.
#[derive(Default)]
pub struct Held {
    /// V commands whose sets were held to every irredundant cover, and to every choice of weights.
    pub pages: usize,
    pub by_choices: usize,
    /// Those where all ends are equal, and those of them with several covers of least cost.
    pub equal_ends: usize,
    pub several_least: usize,
    /// C commands whose set had to be in the list and was; and those where it needs not be.
    pub cheapest: usize,
    pub outside: usize,
    /// Lists joined from the pages of a job, and those of several pages.
    pub joined: usize,
    pub of_pages: usize,
    /// For each wrong way to the list, whether it has other sets at some V of the job.
    pub wrong: [bool; WRONG.len()],
}

/// Holds the answers of a job to K11. The engine's outcome is this one by now.
pub fn check(job: &[u8], outcome: &Outcome) -> Result<Held, String> {
    let mut held = Held::default();
    let list = walk(job, outcome).ok_or("the answers are not those of the commands")?;
    for standing in list.iter().filter(|standing| pages_of(standing).len() > 0) {
        for query in pages_of(standing) {
            is_a_page(query)?;
        }
        if standing.candidates.len() <= FEW {
            of_all_covers(standing, &mut held)?;
        }
    }
    Ok(held)
}

/// The V commands that are answered.
fn pages_of<'a, 'b>(standing: &'b Standing<'a>) -> Vec<&'b Query<'a>> {
    let queries = standing.queries.iter();
    queries
        .filter(|query| query.command[0] == b'V' && query.answer.is_ok())
        .collect()
}

fn answer_of<'a>(query: &Query<'a>) -> &'a [u8] {
    query.answer.expect("it is answered")
}

/// Sets rise from the start, no more than asked for, and more is told of a full page alone.
fn is_a_page(query: &Query) -> Result<(), String> {
    let answer = answer_of(query);
    let (start, count) = (number(&query.command[1..9]), usize::from(query.command[9]));
    let list = sets(answer);
    let rises = list.windows(2).all(|two| two[0] < two[1]);
    let from_start = list.first().is_none_or(|&set| set >= start);
    let told = answer[2] == 0 || (answer[2] == 1 && list.len() == count);
    if answer[0] != 0x76 || !rises || !from_start || list.len() > count || !told {
        return Err(format!("the answer to V from {start} on is no page"));
    }
    Ok(())
}

/// The members that one set has and the other lacks, each at this end.
fn beside(ranges: &[Ends], set: u64, other: u64, end: usize) -> u64 {
    let members = (0..ranges.len()).filter(|i| (set & !other) >> i & 1 == 1);
    members.map(|i| ranges[i][end]).sum()
}

/// No other cover is cheaper where all that both have is left out and the rest is as good for this
/// one as it may be: its own members at low, the other's at high.
pub fn is_listed(ranges: &[Ends], covers: &[u64], set: u64) -> bool {
    let not_beaten = |&t: &u64| beside(ranges, set, t, 0) <= beside(ranges, t, set, 1);
    covers.iter().all(not_beaten)
}

/// Whether some choice makes it one of the cheapest: weight by weight, each whole number is tried.
fn by_some_choice(ranges: &[Ends], covers: &[u64], set: u64, chosen: &mut Vec<u64>) -> bool {
    let Some(&[low, high]) = ranges.get(chosen.len()) else {
        let cost = |s: u64| -> u64 {
            let members = (0..chosen.len()).filter(|i| s >> i & 1 == 1);
            members.map(|i| chosen[i]).sum()
        };
        return covers.iter().all(|&t| cost(set) <= cost(t));
    };
    for weight in low..=high {
        chosen.push(weight);
        let found = by_some_choice(ranges, covers, set, chosen);
        chosen.pop();
        if found {
            return true;
        }
    }
    false
}

fn of_all_covers(standing: &Standing, held: &mut Held) -> Result<(), String> {
    let presence = Presence::new(&standing.table, &standing.candidates);
    let covers = reference::prime_implicants(&presence.of_every_set(Presence::presence));
    let ranges = &standing.ranges;
    let mut list = covers.clone();
    list.retain(|&set| is_listed(ranges, &covers, set));
    let choices: u64 = ranges
        .iter()
        .map(|[low, high]| high - low + 1)
        .fold(1, u64::saturating_mul);
    let few = choices <= FEW_CHOICES;
    let tried = |&set: &u64| by_some_choice(ranges, &covers, set, &mut Vec::new());
    if few && !covers.iter().copied().filter(tried).eq(list.clone()) {
        return Err("the choices of weights give another list".into());
    }
    for query in pages_of(standing) {
        has_these(query, &list)?;
        held.pages += 1;
        held.by_choices += usize::from(few);
    }
    if ranges.iter().all(|[low, high]| low == high) {
        of_least_cost(ranges, &covers, &list, held)?;
    }
    has_the_cheapest(standing, &list, held)?;
    joined(standing, &list, held)?;
    for (seen, (_, tries)) in held.wrong.iter_mut().zip(WRONG) {
        *seen |= wrong::list(tries, standing, &covers) != list;
    }
    Ok(())
}

/// The page has the sets of the list at or above its start that fit, and says whether one is left.
fn has_these(query: &Query, list: &[u64]) -> Result<(), String> {
    let (start, count) = (number(&query.command[1..9]), usize::from(query.command[9]));
    let above: Vec<u64> = list.iter().copied().filter(|&set| set >= start).collect();
    let fit = &above[..above.len().min(count)];
    let answer = answer_of(query);
    if sets(answer) != fit || (answer[2] == 1) != (fit.len() < above.len()) {
        return Err(format!("V from {start} on has not these sets: {fit:?}"));
    }
    Ok(())
}

/// With equal ends there is one choice.
fn of_least_cost(
    ranges: &[Ends],
    covers: &[u64],
    list: &[u64],
    held: &mut Held,
) -> Result<(), String> {
    let cost = |&set: &u64| beside(ranges, set, 0, 0);
    let least = covers.iter().map(cost).min();
    let of_least = covers.iter().filter(|set| Some(cost(set)) == least);
    if !of_least.eq(list) {
        return Err("with equal ends the sets are not those of least cost".into());
    }
    held.equal_ends += 1;
    held.several_least += usize::from(list.len() > 1);
    Ok(())
}

/// C keeps the weights. Where these are a choice within the ranges its set is in the list.
fn has_the_cheapest(standing: &Standing, list: &[u64], held: &mut Held) -> Result<(), String> {
    let candidates = &standing.candidates;
    let weight = |i: usize| charge_set(RIGHT, standing.prices, candidates, 1 << i);
    let within = (0..candidates.len()).all(|i| {
        let [low, high] = standing.ranges[i];
        (low..=high).contains(&weight(i))
    });
    for query in &standing.queries {
        let (b'C', Ok(answer)) = (query.command[0], query.answer) else {
            continue;
        };
        let set = number(&answer[3..]);
        if within && !list.contains(&set) {
            return Err(format!("the cheapest, {set}, is not in V's list"));
        }
        held.cheapest += usize::from(within);
        held.outside += usize::from(!list.contains(&set));
    }
    Ok(())
}

/// The pages from 0 on, each one from one above the last set that was got, until no more is told.
fn joined(standing: &Standing, list: &[u64], held: &mut Held) -> Result<(), String> {
    let mut got: Vec<u64> = Vec::new();
    let mut pages = 0;
    for query in pages_of(standing) {
        let next = got.last().map_or(0, |last| last.wrapping_add(1));
        if number(&query.command[1..9]) != next {
            continue;
        }
        got.extend(sets(answer_of(query)));
        pages += 1;
        if answer_of(query)[2] == 0 {
            held.joined += 1;
            held.of_pages += usize::from(pages > 1);
            let wrong = "joined pages of V are not its list";
            return (got == list).then_some(()).ok_or(wrong.into());
        }
    }
    Ok(())
}
