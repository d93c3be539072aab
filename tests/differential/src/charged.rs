//! What K6 says of each C, asked of its answer: the cost is what the prices charge for the members,
//! and by K10 the weight of those that are blocks.
//! Over few candidates no other irredundant cover costs less, nor as much with a smaller number.
//! The reference's costs are left aside; K6 and K10 are read here a second time.

mod wrong;

pub use wrong::{Way, WRONG, WRONG_BLOCKS};

use crate::format::number;
use crate::reference::{self, Block, Candidate, Outcome, Presence, Term};
use crate::walk::{walk, Standing};

/// Up to this many candidates every set is tried.
const FEW: usize = 10;

/// What a job was held to.
#[derive(Default)]
pub struct Held {
    /// C commands whose cost was held to the prices, and those held to every irredundant cover.
    pub costs: usize,
    pub cheapest: usize,
    /// Of the latter, those at which another irredundant cover costs as much.
    pub equals: usize,
}

/// What these prices (of a term, a literal, a connection) charge for a term.
pub fn charge(prices: [u8; 3], t: &Term) -> u64 {
    let [term, literal, connection] = prices.map(u64::from);
    let ones = |byte: u8| (0..8).filter(move |i| byte >> i & 1 == 1);
    let mut cost = term;
    if ones(t.care).nth(1).is_some() {
        ones(t.care).for_each(|_| cost += literal);
    }
    ones(t.outputs).for_each(|_| cost += connection);
    cost
}

/// A block has its cost with it.
pub fn charge_block(_: [u8; 3], b: &Block) -> u64 {
    u64::from(b.weight)
}

/// As K6 charges terms and K10 blocks.
pub const RIGHT: Way = Way {
    term: charge,
    block: charge_block,
};

/// The sum over the members, each charged in this way.
pub fn charge_set(way: Way, prices: [u8; 3], candidates: &[Candidate], set: u64) -> u64 {
    let members = (0..candidates.len()).filter(|i| set >> i & 1 == 1);
    let cost = |i: usize| match &candidates[i] {
        Candidate::Term(t) => (way.term)(prices, t),
        Candidate::Block(b) => (way.block)(prices, b),
    };
    members.map(cost).sum()
}

/// Holds the answers of a job to K6. The engine's outcome is this one by now.
pub fn check(job: &[u8], outcome: &Outcome) -> Result<Held, String> {
    let mut held = Held::default();
    let list = walk(job, outcome).ok_or("the answers are not those of the commands")?;
    for standing in &list {
        let answers = cheapest_in(standing);
        for &(cost, set) in &answers {
            let due = charge_set(RIGHT, standing.prices, &standing.candidates, set);
            if cost != due {
                return Err(format!("set {set} is told to cost {cost} and costs {due}"));
            }
            held.costs += 1;
        }
        if !answers.is_empty() && standing.candidates.len() <= FEW {
            of_all_covers(standing, &answers, &mut held)?;
        }
    }
    Ok(held)
}

/// Cost and set of each C that is answered.
fn cheapest_in(standing: &Standing) -> Vec<(u64, u64)> {
    let told = |answer: &[u8]| (number(&answer[1..3]), number(&answer[3..]));
    let queries = standing.queries.iter();
    let cheapest = queries.filter(|query| query.command[0] == b'C');
    let answered = cheapest.filter_map(|query| query.answer.ok());
    answered.map(told).collect()
}

/// Each answer is the least of the irredundant covers by cost, then number.
fn of_all_covers(
    standing: &Standing,
    answers: &[(u64, u64)],
    held: &mut Held,
) -> Result<(), String> {
    let presence = Presence::new(&standing.table, &standing.candidates);
    let covers = reference::prime_implicants(&presence.of_every_set(Presence::presence));
    let cost = |set: u64| charge_set(RIGHT, standing.prices, &standing.candidates, set);
    let by_cost: Vec<(u64, u64)> = covers.iter().map(|&set| (cost(set), set)).collect();
    let least = by_cost.iter().min().ok_or("C is answered over no cover")?;
    let as_much = by_cost.iter().filter(|(cost, _)| *cost == least.0).count();
    for told in answers {
        if told != least {
            let wrong = "the cheapest is told as cost and set";
            return Err(format!("{wrong} {told:?} and is {least:?}"));
        }
        held.cheapest += 1;
        held.equals += usize::from(as_much > 1);
    }
    Ok(())
}
