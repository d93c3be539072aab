//! The whole lists of both jobs by an engine's own pages: each page in a further job that has the
//! same commands before it, with the queries among them and without in turn.

use super::{ask, Call, Held, Kind, Pair, COME, CUT};
use crate::format::{cut, sets, QUERIES};
use crate::fresh::kept;
use crate::generate::page;
use crate::reference::{Outcome, LONGEST};
use crate::rng::Rng;
use crate::walk;

/// Lists with more sets are not compared.
const MOST_SETS: usize = 3_000;

/// The first L, C, N or V over the same candidates: the bytes of the job and of the answers before it.
struct Place {
    at: usize,
    answered: usize,
}

/// All sets, or None where they are too many; and how many pages they took.
struct Whole {
    list: Option<Vec<u64>>,
    pages: usize,
}

pub fn compare(
    call: Call,
    pair: &Pair,
    outcomes: [&Outcome; 2],
    held: &mut Held,
) -> Result<(), String> {
    let places = |i: usize| places(&pair.jobs[i], outcomes[i]).ok_or(CUT);
    let mut rng = Rng::of(&pair.jobs[1]);
    for (place, again) in places(0)?.iter().zip(&places(1)?) {
        let mut whole = |i: usize, place: &Place| {
            let count = rng.pick(&[1, 1, 2, 3, 7, 255]);
            whole(call, &pair.jobs[i], outcomes[i], place, count)
        };
        let (one, other) = (whole(0, place)?, whole(1, again)?);
        let several = one.pages > 1 && other.pages > 1;
        match (one.list, other.list) {
            (Some(one), Some(other)) if pair.same(&one, &other) => {
                held.count(Kind::Paged, 1);
                held.count_if(Kind::SeveralPages, several);
            }
            (None, None) => held.count(Kind::TooLong, 1),
            _ => return Err(format!("other covers by pages at offset {}", place.at)),
        }
    }
    Ok(())
}

fn places(job: &[u8], outcome: &Outcome) -> Option<Vec<Place>> {
    let mut list = Vec::new();
    let (mut at, mut answered, mut changed) = (0, 0, true);
    for command in cut(job)? {
        let query = QUERIES.contains(&command[0]);
        if query && changed {
            list.push(Place { at, answered });
        }
        changed = !query && (changed || COME.contains(&command[0]));
        answered += walk::width(command[0], &outcome.buffer[answered..outcome.written])?;
        at += command.len();
    }
    Some(list)
}

/// The pages grow, so that long lists take few of them.
fn whole(
    call: Call,
    job: &[u8],
    outcome: &Outcome,
    place: &Place,
    mut count: u8,
) -> Result<Whole, String> {
    let loud = (&job[..place.at], &outcome.buffer[..place.answered]);
    let without = kept(loud.0, |byte| !QUERIES.contains(&byte));
    let quiet = (&without[..], &[][..]);
    let fits = loud.0.len() + 11 <= LONGEST && loud.1.len() + 4 + 8 * 255 <= LONGEST;
    let heads = [if fits { loud } else { quiet }, quiet];
    let mut list: Vec<u64> = Vec::new();
    let mut start = Some(0);
    for pages in 1.. {
        let from = start.ok_or("more is told above the highest number")?;
        let (got, more) = page_behind(call, heads[pages % 2], from, count)?;
        list.extend(&got);
        if !more || list.len() > MOST_SETS {
            let list = (list.len() <= MOST_SETS).then_some(list);
            return Ok(Whole { list, pages });
        }
        start = list.last().and_then(|last| last.checked_add(1));
        count = count.saturating_mul(2);
    }
    unreachable!("each page but the last has a set")
}

/// The sets of a page behind a head with known answers, and whether more is told.
fn page_behind(
    call: Call,
    (head, before): (&[u8], &[u8]),
    start: u64,
    count: u8,
) -> Result<(Vec<u64>, bool), String> {
    let job = [head, &page(start, count), b"E"].concat();
    let out = ask(call, &job, before.len() + 4 + 8 * usize::from(count))?;
    if (out.number, out.offset) != (0, job.len()) {
        return Err(format!("a page is refused with {}", out.number));
    }
    let own = out.buffer[..out.written].strip_prefix(before);
    let own = own.and_then(|own| own.strip_suffix(&[0x65]));
    let Some(own @ [0x6c, k, more, rest @ ..]) = own else {
        return Err("an answer is no page".into());
    };
    let whole = rest.len() == 8 * usize::from(*k) && *k <= count;
    // A page without sets can't tell of more: it has room for one.
    let told = *more == 0 || (*more == 1 && *k > 0);
    let got = if whole { sets(own) } else { Vec::new() };
    if !whole || !told || got.iter().any(|&set| set < start) {
        return Err(format!("a page from {start} on is none"));
    }
    Ok((got, *more == 1))
}
