//! What K12 says of a job at the part, asked of its answers and of the engine: each L has those
//! irredundant covers that fit, rising from its start, and says whether one more of them is left; 20
//! comes exactly where none fits at all. The wide list is the engine's own, got in pages, and over few
//! candidates that of the presence function. All other commands are answered as the engine answers
//! them (`part/others.rs`), and pages over further jobs, joined, are the narrower list
//! (`part/joined.rs`). The reference's way to that list is left aside; K12 is read here a second time.

mod held;
mod joined;
mod others;
mod wrong;

pub use held::{Held, Kind};
pub use wrong::{fitting_by, WRONG};

use crate::engine::{self, Seen};
use crate::format::{number, sets};
use crate::generate::Case;
use crate::reference::{self, Candidate, Layer, Outcome, Presence};
use crate::walk::{walk, Query, Standing};

/// With so many candidates every set is tried. Fewer always fit.
const FEW: std::ops::RangeInclusive<usize> = 8..=10;

/// Both products, as they are called here.
pub type Call<'a> = &'a dyn Fn(Layer, &Case, &[u8]) -> Seen;

/// Holds the part to K12. Its outcome of the job and the engine's are these by now.
pub fn check(case: &Case, outcomes: [&Outcome; 2]) -> Result<Held, String> {
    check_of(&engine::call_at, case, outcomes)
}

/// The same of other products.
pub fn check_of(call: Call, case: &Case, outcomes: [&Outcome; 2]) -> Result<Held, String> {
    let mut held = Held::default();
    let [engine, part] = outcomes;
    if part.number == 1 || !case.job.contains(&b'L') {
        return Ok(held);
    }
    let narrowed = engine != part;
    let list = walk(&case.job, part).ok_or("the answers are not those of the commands")?;
    for standing in list.iter().filter(|standing| asks(standing)) {
        pages_alone(standing)?;
        if let Some(covers) = covers(call, case, standing, narrowed)? {
            let fitting = fitting(&standing.candidates, &covers);
            by_the_list(standing, &fitting, case.room)?;
            held.add(standing, &covers, &fitting, case.room);
            if narrowed {
                joined::check(call, &case.job, standing, &fitting, &mut held)?;
            }
        }
    }
    if narrowed {
        others::check(call, case, part, &mut held)?;
    }
    Ok(held)
}

fn is_page(query: &Query) -> bool {
    query.command[0] == b'L'
}

fn asks(standing: &Standing) -> bool {
    let unheld = |query: &Query| query.answer == Err(12);
    standing.queries.iter().any(|q| is_page(q) && !unheld(q))
}

/// What the part has left of its terms, in all and for each output, behind the members of a set.
pub fn left(candidates: &[Candidate], set: u64) -> [i32; 9] {
    let mut left = [7, 7, 7, 7, 7, 7, 7, 7, 32];
    for (i, candidate) in candidates.iter().enumerate() {
        if set & 1 << i != 0 {
            left[8] -= 1;
            (0..8).for_each(|j| left[j] -= i32::from(candidate.outputs() >> j & 1));
        }
    }
    left
}

/// The part has enough terms.
pub fn fitting(candidates: &[Candidate], covers: &[u64]) -> Vec<u64> {
    let enough = |set: u64| left(candidates, set).iter().all(|&terms| terms >= 0);
    covers.iter().copied().filter(|&set| enough(set)).collect()
}

/// The irredundant covers, where it is not too much to find them.
fn covers(
    call: Call,
    case: &Case,
    standing: &Standing,
    narrowed: bool,
) -> Result<Option<Vec<u64>>, String> {
    if narrowed {
        return joined::of_engine(call, &case.job, standing).map(Some);
    }
    let few = FEW.contains(&standing.candidates.len());
    let presence = || Presence::new(&standing.table, &standing.candidates);
    let every = || reference::prime_implicants(&presence().of_every_set(Presence::presence));
    Ok(few.then(every))
}

/// What a page must be by itself: its first byte, sets that rise from the start, no more than asked
/// for, each of which fits, and more told of a full page alone.
fn pages_alone(standing: &Standing) -> Result<(), String> {
    for query in standing.queries.iter().filter(|query| is_page(query)) {
        let Ok(answer) = query.answer else { continue };
        let (start, count) = (number(&query.command[1..9]), usize::from(query.command[9]));
        let list = sets(answer);
        let rises = list.windows(2).all(|two| two[0] < two[1]);
        let from_start = list.first().is_none_or(|&set| set >= start);
        let told = answer[2] == 0 || (answer[2] == 1 && list.len() == count);
        let fit = fitting(&standing.candidates, &list) == list;
        if answer[0] != 0x6c || !rises || !from_start || list.len() > count || !told || !fit {
            return Err(format!(
                "the answer to L from {start} on is no page of the part"
            ));
        }
    }
    Ok(())
}

/// Each L against the whole list: 20 where it is empty, 14 where its page is too long, else its page.
fn by_the_list(standing: &Standing, fitting: &[u64], room: usize) -> Result<(), String> {
    for query in standing.queries.iter().filter(|query| is_page(query)) {
        let (start, count) = (number(&query.command[1..9]), usize::from(query.command[9]));
        let above = &fitting[fitting.partition_point(|&set| set < start)..];
        let page = &above[..above.len().min(count)];
        let more = u8::from(page.len() < above.len());
        let right = match query.answer {
            _ if fitting.is_empty() => query.answer == Err(20),
            Ok(answer) => sets(answer) == page && answer[2] == more,
            Err(number) => number == 14 && query.answered + 3 + 8 * page.len() > room,
        };
        if !right {
            let of = fitting.len();
            return Err(format!("L from {start} on is wrong, {of} covers fit"));
        }
    }
    Ok(())
}
