//! What document 000 says of each L, C, N and V, asked of their answers: 12 is refused where the
//! presence of all candidates is 0, and each set in an answer is a prime implicant of the presence
//! function. Over few candidates every set is tried: the presence is the cover test of the
//! reference, a page has the prime implicants and none else, and N has all of them. Which of them V
//! has is in `ranged.rs`.

use crate::format::{number, sets};
use crate::reference::{self, Outcome, Presence};
use crate::walk::{walk, Query, Standing};

/// Up to this many candidates every set is tried.
const FEW: usize = 10;

/// What a job was held to.
#[derive(Default)]
pub struct Held {
    /// L, C, N and V commands that 12 does not refuse, and those that it does.
    pub answered: usize,
    pub refused: usize,
    /// The sets in the answers.
    pub sets: usize,
    /// Sets at which the presence was held to the cover test.
    pub tried: usize,
    /// Pages held to the prime implicants, and how many of them are the whole list.
    pub pages: usize,
    pub lists: usize,
    /// N commands held to the prime implicants.
    pub products: usize,
    /// Whether the document's delta would have let a refused command pass, or changed a list.
    pub passed_by_delta: bool,
    pub changed_by_delta: bool,
}

/// Holds a job to the document. The engine's outcome is this one by now.
pub fn check(job: &[u8], outcome: &Outcome) -> Result<Held, String> {
    let mut held = Held::default();
    let list = walk(job, outcome).ok_or("the answers are not those of the commands")?;
    for standing in &list {
        let presence = Presence::new(&standing.table, &standing.candidates);
        for query in &standing.queries {
            refused_as_due(&presence, query, &mut held)?;
            sets_are_prime(&presence, query, &mut held)?;
        }
        if standing.candidates.len() <= FEW {
            every_set(&presence, standing, &mut held)?;
        }
    }
    Ok(held)
}

/// 12 comes exactly where the presence of all candidates is 0.
fn refused_as_due(presence: &Presence, query: &Query, held: &mut Held) -> Result<(), String> {
    let all = presence.all();
    let (refused, present) = (query.answer == Err(12), presence.presence(all));
    if refused == present {
        return Err(format!(
            "refused with 12: {refused}, presence of all candidates: {present}"
        ));
    }
    if refused {
        held.refused += 1;
        held.passed_by_delta |= presence.presence_with_delta(all);
    } else {
        held.answered += 1;
    }
    Ok(())
}

/// The Theorem at each set of an answer: its presence is 1, and 0 without any one member.
fn sets_are_prime(presence: &Presence, query: &Query, held: &mut Held) -> Result<(), String> {
    for set in sets_in(query) {
        let mut members = (0..64).map(|m| 1 << m).filter(|bit| set & bit != 0);
        if !presence.presence(set) || members.any(|bit| presence.presence(set & !bit)) {
            return Err(format!("set {set} is no prime implicant"));
        }
        held.sets += 1;
    }
    Ok(())
}

fn sets_in(query: &Query) -> Vec<u64> {
    match (query.command[0], query.answer) {
        (b'L' | b'N' | b'V', Ok(answer)) => sets(answer),
        (_, Ok(answer)) => vec![number(&answer[3..])],
        _ => Vec::new(),
    }
}

/// The presence of every set is the cover test's and as Lemmas 1 and 2 have it, and the answers go
/// by the prime implicants.
fn every_set(presence: &Presence, standing: &Standing, held: &mut Held) -> Result<(), String> {
    let of_every_set = presence.of_every_set(Presence::presence);
    let sums = reference::sums(&standing.table, &standing.candidates);
    let implicants = reference::implicants(&of_every_set);
    for (s, &present) in of_every_set.iter().enumerate() {
        if present != reference::is_cover(&sums, s as u64) || present != implicants[s] {
            return Err(format!("the presence of set {s} is {present}"));
        }
        held.tried += 1;
    }
    let primes = reference::prime_implicants(&of_every_set);
    for query in &standing.queries {
        page_has_all(&primes, query, held)?;
        products_are_all(&primes, query, held)?;
    }
    let with_delta = presence.of_every_set(Presence::presence_with_delta);
    let answered = presence.presence(presence.all());
    held.changed_by_delta |= answered && reference::prime_implicants(&with_delta) != primes;
    Ok(())
}

/// A page has the prime implicants at or above its start that fit, and says whether one is left.
fn page_has_all(primes: &[u64], query: &Query, held: &mut Held) -> Result<(), String> {
    let (b'L', Ok(answer)) = (query.command[0], query.answer) else {
        return Ok(());
    };
    let (start, count) = (number(&query.command[1..9]), usize::from(query.command[9]));
    let above = &primes[primes.partition_point(|&set| set < start)..];
    let fit = &above[..above.len().min(count)];
    let more = u8::from(fit.len() < above.len());
    if sets(answer) != fit || answer[2] != more {
        return Err(format!(
            "the page from {start} on is not of the prime implicants"
        ));
    }
    held.pages += 1;
    held.lists += usize::from(start == 0 && more == 0);
    Ok(())
}

/// N has every prime implicant.
fn products_are_all(primes: &[u64], query: &Query, held: &mut Held) -> Result<(), String> {
    let (b'N', Ok(answer)) = (query.command[0], query.answer) else {
        return Ok(());
    };
    if sets(answer) != primes {
        return Err("the products are not the prime implicants".into());
    }
    held.products += 1;
    Ok(())
}
