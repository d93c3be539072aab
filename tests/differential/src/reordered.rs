//! What K9 promises of an accepted job without D, asked of the engine: with its T commands in another
//! order, and each candidate renumbered by its new position, the job has the same irredundant covers
//! at each L, C and N, its cheapest costs as much, and N answers with the same sets. An A or F keeps
//! its place. The lists are those of the reference (here) and the engine's own pages joined
//! (`pages.rs`); the answers are held to each other in `answers.rs`.

pub mod answers;
mod held;
pub mod pages;

pub use held::{Held, Kind, Named, KINDS};

use crate::engine::{self, Seen};
use crate::format::{self, cut, number};
use crate::generate::{drawn_order, terms_of, Case};
use crate::reference::{self, Asked, Covers, Outcome, LONGEST};
use crate::report::{hex, matches};
use crate::rng::Rng;

/// An engine as it is called.
pub type Call<'a> = &'a dyn Fn(&Case, &[u8]) -> Seen;

const CUT: &str = "the answers are not those of the commands";

/// A job, the same with its T commands in another order, and the new number of each candidate.
pub struct Pair {
    pub jobs: [Vec<u8>; 2],
    pub numbers: Vec<usize>,
}

/// The commands that put in a candidate.
const COME: &[u8] = b"TAF";

/// The places of the commands that begin with one of these bytes.
fn places(commands: &[&[u8]], bytes: &[u8]) -> Vec<usize> {
    let all = 0..commands.len();
    all.filter(|&i| bytes.contains(&commands[i][0])).collect()
}

impl Pair {
    /// By the new place of each T among the T commands. A place has one number, whoever stands there.
    pub fn new(job: &[u8], order: &[usize]) -> Pair {
        let commands = cut(job).expect("an accepted job is a list of commands");
        let terms = places(&commands, b"T");
        let candidates = places(&commands, COME);
        let mut moved = commands.clone();
        let mut to: Vec<usize> = (0..commands.len()).collect();
        for (term, &place) in terms.iter().zip(order) {
            moved[terms[place]] = commands[*term];
            to[*term] = terms[place];
        }
        let number_at = |place: &usize| candidates.iter().position(|at| at == place);
        let new = |old: &usize| number_at(&to[*old]).expect("a T stands there");
        Pair {
            numbers: candidates.iter().map(new).collect(),
            jobs: [job.to_vec(), moved.concat()],
        }
    }

    /// Whether the jobs differ in the order of their T commands alone and each candidate, whether by T,
    /// A or F, stands under its new number.
    pub fn is_sound(&self) -> bool {
        let [Some(first), Some(second)] = [0, 1].map(|i| cut(&self.jobs[i])) else {
            return false;
        };
        let mut both = first.iter().zip(&second);
        let in_place = both.all(|(one, other)| one == other || [one[0], other[0]] == *b"TT");
        let [old, new] = [&first, &second].map(|commands| places(commands, COME));
        let moved = |(i, &number): (usize, &usize)| {
            new.get(number)
                .is_some_and(|&at| second[at] == first[old[i]])
        };
        let mut numbers = self.numbers.clone();
        numbers.sort_unstable();
        let once = numbers.into_iter().eq(0..old.len());
        let all_moved = once && self.numbers.iter().enumerate().all(moved);
        in_place && first.len() == second.len() && all_moved
    }

    pub fn renumbered(&self, set: u64) -> u64 {
        let members = (0..self.numbers.len()).filter(|i| set >> i & 1 == 1);
        members.fold(0, |new, i| new | 1 << self.numbers[i])
    }

    /// The pair the other way round.
    pub fn back(&self) -> Pair {
        let mut numbers = vec![0; self.numbers.len()];
        for (old, &new) in self.numbers.iter().enumerate() {
            numbers[new] = old;
        }
        let [first, second] = self.jobs.clone();
        Pair {
            jobs: [second, first],
            numbers,
        }
    }

    /// The list of the first job, renumbered, is that of the second: each is there, and as many. Both
    /// must rise, so that none is there twice.
    pub fn same(&self, first: &[u64], second: &[u64]) -> bool {
        let mut renumbered: Vec<u64> = first.iter().map(|&set| self.renumbered(set)).collect();
        renumbered.sort_unstable();
        let rises = |list: &[u64]| list.windows(2).all(|two| two[0] < two[1]);
        rises(first) && rises(second) && renumbered == second
    }
}

/// Holds an accepted job without D and with two T commands or more to a drawn order of these, the
/// same for every run of it.
pub fn check(case: &Case) -> Result<Option<Held>, String> {
    let terms = terms_of(&case.job);
    if terms.len() < 2 || format::has(&case.job, b"D") {
        return Ok(None);
    }
    let order = drawn_order(&mut Rng::of(&case.job), &terms);
    check_order(case, &order).map(Some)
}

/// The same for this order.
pub fn check_order(case: &Case, order: &[usize]) -> Result<Held, String> {
    let pair = Pair::new(&case.job, order);
    let mut held = Held::default();
    let checked = if pair.is_sound() {
        by_reference(&pair, &mut held)
            .and_then(|()| as_due(&pair, case.room))
            .and_then(|()| by_engine(&engine::call, &pair, case.room, &mut held))
    } else {
        Err("this is no other order".into())
    };
    let told = |wrong| format!("{wrong}; in another order: {}", hex(&pair.jobs[1]));
    checked.map_err(told).map(|()| held)
}

/// The reference's lists at each L, C and N: all that stand over the same candidates are looked at
/// once. Where it can't list, it is left to the engine's pages and N.
pub fn by_reference(pair: &Pair, held: &mut Held) -> Result<(), String> {
    let [Some(first), Some(second)] = [0, 1].map(|i| reference::asked(&pair.jobs[i])) else {
        return refused_by_reference(pair, held);
    };
    if first.queries.len() != second.queries.len() {
        return Err("other L, C and N commands".into());
    }
    let mut standing = None;
    for (i, query) in first.queries.iter().enumerate() {
        if standing.replace(query.candidates.len()) == Some(query.candidates.len()) {
            continue;
        }
        match [&first, &second].map(|asked| list_at(asked, i)) {
            [Some(one), Some(other)] if pair.same(&one, &other) => held.count(Kind::Listed, 1),
            [Some(_), Some(_)] => {
                let at = query.at;
                return Err(format!("reference: other covers at offset {at}"));
            }
            _ => held.count(Kind::Beyond, 1),
        }
    }
    Ok(())
}

fn list_at(asked: &Asked, i: usize) -> Option<Vec<u64>> {
    match reference::irredundant_covers(&asked.table, &asked.queries[i].candidates) {
        Covers::All(list) => Some(list),
        _ => None,
    }
}

/// Too much work, or a refusal that may be.
fn refused_by_reference(pair: &Pair, held: &mut Held) -> Result<(), String> {
    for job in &pair.jobs {
        match reference::run(job, &[0; LONGEST]) {
            Some(out) if out.number != 0 && !may_refuse(job, &out) => {
                return Err(format!("reference: refused with {}", out.number));
            }
            _ => {}
        }
    }
    held.count(Kind::Beyond, 1);
    Ok(())
}

/// The engine's outcome of the other job is the reference's.
fn as_due(pair: &Pair, room: usize) -> Result<(), String> {
    let before = engine::pattern(room, 0x17);
    let Some(due) = reference::run(&pair.jobs[1], &before) else {
        return Ok(());
    };
    let seen = engine::call(&case_of(&pair.jobs[1], room), &before);
    let same = matches(&due, &seen);
    same.then_some(())
        .ok_or("engine: not as the reference".into())
}

fn case_of(job: &[u8], room: usize) -> Case {
    Case {
        job: job.to_vec(),
        behind: Vec::new(),
        room,
    }
}

/// Holds what an engine answers to both jobs over a buffer of this length. Where the other job is
/// refused, which must be one that may come, both are asked over the longest one.
pub fn by_engine(call: Call, pair: &Pair, room: usize, held: &mut Held) -> Result<(), String> {
    let rooms = [room, LONGEST];
    for &room in &rooms[usize::from(room == LONGEST)..] {
        let [first, second] = [0, 1].map(|i| ask(call, &pair.jobs[i], room));
        let (first, second) = (first?, second?);
        if first.number != 0 {
            return Err(format!("refused with {}", first.number));
        }
        if second.number == 0 {
            held.count_pair(pair);
            answers::compare(pair, [&first, &second], held)?;
            return pages::compare(call, pair, [&first, &second], held);
        }
        if !may_refuse(&pair.jobs[1], &second) {
            return Err(format!("refused with {} in another order", second.number));
        }
        held.count(Kind::NoRoom, 1);
    }
    Ok(())
}

/// What an engine makes of a job. No byte behind the answers may have changed.
fn ask(call: Call, job: &[u8], room: usize) -> Result<Outcome, String> {
    let before = engine::pattern(room, 0x17);
    let seen = call(&case_of(job, room), &before);
    let outcome = seen.outcome();
    let kept =
        outcome.written <= room && outcome.buffer[outcome.written..] == before[outcome.written..];
    if !seen.guards_kept || !seen.job_kept || !kept {
        return Err(format!("other bytes have changed: {}", hex(job)));
    }
    Ok(outcome)
}

/// A job that is accepted in one order can only be refused with 14 in another. Each term is legal or
/// not by itself, as many stand, and all T commands stand before the first query, so that 12 goes by
/// the same terms and 17 by as many products at each cell. But a page from a start above 0 has the
/// sets with high numbers, which may be more, and leaves less of the buffer to what is behind it; and
/// so may a V, as a G gives the range to another candidate there.
pub fn may_refuse(job: &[u8], outcome: &Outcome) -> bool {
    let from_above = |command: &&[u8]| match command[0] {
        b'L' => number(&command[1..9]) > 0,
        byte => byte == b'V',
    };
    let commands = cut(job).unwrap_or_default();
    let mut at = 0;
    let read = commands.iter().take_while(|command| {
        let starts = at;
        at += command.len();
        starts <= outcome.offset
    });
    outcome.number == 14 && read.filter(|command| from_above(command)).count() > 0
}
