//! What K2 promises of an accepted job, asked of the engine: each L and C, and each N, which equals
//! pages of L, answers as in a fresh job with the standing candidates in the standing order, and
//! pages are joined over further jobs that have the same A and D commands before them. By K11 the same
//! goes for V with the standing ranges, which a fresh job has by a G for each candidate; it is asked
//! of V without A and D, too.

use crate::engine;
use crate::expanded::expand;
use crate::format::{self, cut, sets};
use crate::generate::{page, put, range, ranged_page, Case};
use crate::reference::{self, Asked, Covers, Query, LONGEST};
use crate::report::{hex, matches};

/// A page of this list: the command, and the first byte of its answer.
type Paging = (fn(u64, u8) -> Vec<u8>, u8);

const ALL: Paging = (page, 0x6c);
const POSSIBLY_CHEAPEST: Paging = (ranged_page, 0x76);

/// The most bytes that P, one page and E answer with.
const PRIMES_PAGE_END: usize = (2 + 3 * 64) + (3 + 8 * 255) + 1;

/// How many L, C and N commands were held to a fresh job, and how many lists, each of two pages or
/// more, were joined over further jobs.
#[derive(Default)]
pub struct Held {
    pub queries: usize,
    pub lists: usize,
    /// Of the queries, those with a block among the standing candidates.
    pub with_blocks: usize,
    /// Of the queries, the V commands; and the same of V's lists.
    pub ranged: usize,
    pub ranged_lists: usize,
}

/// Holds an accepted job whose candidates come and go to the promise. Its answers are the
/// reference's by now.
pub fn check(job: &[u8], asked: &Asked) -> Result<Held, String> {
    let mut held = Held::default();
    let moving = format::come_and_go(job);
    let is_ranged = |query: &&Query| query.command[0] == b'V';
    let concerned = asked.queries.iter().filter(|q| moving || is_ranged(q));
    let head = kept(job, |byte| b"IWRB".contains(&byte));
    for query in concerned {
        as_in_a_fresh_job(&head, query)?;
        held.queries += usize::from(moving);
        held.ranged += usize::from(is_ranged(&query));
        held.with_blocks += usize::from(query.candidates.iter().any(|c| c.block().is_some()));
    }
    let written: usize = asked.queries.iter().map(|query| query.answer.len()).sum();
    if written + PRIMES_PAGE_END > LONGEST {
        return Ok(held);
    }
    for (i, query) in asked.queries.iter().enumerate() {
        if moving && (i == 0 || query.candidates != asked.queries[i - 1].candidates) {
            let list = list_at(asked, query)?;
            held.lists += usize::from(joined_over_jobs(job, query, &list, ALL)? > 1);
        }
    }
    let mut last = None;
    for query in asked.queries.iter().filter(is_ranged) {
        let found = (&query.candidates, &query.ranges);
        if last.replace(found) != Some(found) {
            let list = reference::possibly_cheapest(&covers_at(asked, query)?, &query.ranges);
            let pages = joined_over_jobs(job, query, &list, POSSIBLY_CHEAPEST)?;
            held.ranged_lists += usize::from(pages > 1);
        }
    }
    Ok(held)
}

/// The commands that begin with such a byte.
pub fn kept(job: &[u8], keep: impl Fn(u8) -> bool) -> Vec<u8> {
    let mut commands = cut(job).expect("an accepted job is a list of commands");
    commands.retain(|command| keep(command[0]));
    commands.concat()
}

/// The prices and the table, a T or, for a block, an F for each standing candidate, a G for each
/// where the query goes by the ranges, the query and E.
fn as_in_a_fresh_job(head: &[u8], query: &Query) -> Result<(), String> {
    let candidates: Vec<u8> = query.candidates.iter().flat_map(put).collect();
    let by_ranges = query.ranges.iter().enumerate();
    let by_ranges = by_ranges.filter(|_| query.command[0] == b'V');
    let ranges: Vec<u8> = by_ranges.flat_map(|(i, &r)| range(i as u8, r)).collect();
    let answers = [query.answer.as_slice(), &[0x65]].concat();
    let case = Case {
        job: [head, &candidates, &ranges, &query.command, b"E"].concat(),
        behind: Vec::new(),
        room: answers.len(),
    };
    let before = engine::pattern(case.room, 0x69);
    let expected = reference::run(&case.job, &before).ok_or("no reference of a fresh job")?;
    let same = expected.number == 0 && expected.buffer == answers;
    if same && matches(&expected, &engine::call(&case, &before)) {
        return Ok(());
    }
    let (at, fresh) = (query.at, hex(&case.job));
    Err(format!(
        "a fresh job answers otherwise than offset {at}: {fresh}"
    ))
}

/// The list at this query in pages of half its sets, each page in a further job; how many pages.
fn joined_over_jobs(
    job: &[u8],
    query: &Query,
    list: &[u64],
    paging: Paging,
) -> Result<usize, String> {
    let count = list.len().div_ceil(2).clamp(1, 255) as u8;
    // The same A, D and G commands stand in both, with the queries between them and without.
    // The table is the same, too, where the second one has R for B.
    let whole = &job[..query.at];
    let quiet = kept(whole, |byte| !format::QUERIES.contains(&byte));
    let by_rows = expand(&quiet).job;
    let short = by_rows.len() + 11 <= LONGEST;
    let heads = [whole, if short { &by_rows } else { &quiet }];
    let mut got: Vec<u64> = Vec::new();
    for (pages, head) in heads.iter().cycle().enumerate() {
        let start = got.last().map_or(0, |last| last.saturating_add(1));
        let answer = page_behind(head, &paging.0(start, count), paging.1)?;
        let more = answer[2] != 0 && answer.len() > 3;
        got.extend(sets(&answer));
        if !more || got.len() > list.len() {
            let wrong = || format!("joined pages are not the list at offset {}", query.at);
            return (got == list).then_some(pages + 1).ok_or_else(wrong);
        }
    }
    unreachable!("the heads take turns without end")
}

/// All irredundant covers. An N has them, where they may be too many for the reference's L.
fn list_at(asked: &Asked, query: &Query) -> Result<Vec<u64>, String> {
    if query.command == b"N" {
        return Ok(sets(&query.answer));
    }
    covers_at(asked, query)
}

fn covers_at(asked: &Asked, query: &Query) -> Result<Vec<u64>, String> {
    match reference::irredundant_covers(&asked.table, &query.candidates) {
        Covers::All(list) => Ok(list),
        _ => Err("no list where L, C or V was answered".into()),
    }
}

/// The answer of a page behind a head, which begins with this byte.
fn page_behind(head: &[u8], page: &[u8], first: u8) -> Result<Vec<u8>, String> {
    let mut before = engine::answers(&[head, b"E"].concat())?;
    let mut with = engine::answers(&[head, page, b"E"].concat())?;
    // E's answer ends both.
    before.pop();
    with.pop();
    let own = with.strip_prefix(before.as_slice());
    let own = own.filter(|answer| answer.len() >= 3 && answer[0] == first);
    own.map(<[u8]>::to_vec).ok_or("a page is too short".into())
}
