//! Whole lists in pages, each page in a further job with the same table, candidates, A and D commands:
//! the engine's, which is the wide one, and the part's.

use super::{Call, Held, Kind};
use crate::engine::pattern;
use crate::format::{self, sets};
use crate::fresh::kept;
use crate::generate::{page, Case};
use crate::reference::{Layer, LONGEST};
use crate::walk::{self, Query, Standing};

const CUT: &str = "the answers of a further job are not those of its commands";

/// The most bytes of one page and E's answer.
const PAGE_END: usize = 3 + 8 * 255 + 1;

/// The first L over these candidates; one stands there.
fn first_page<'a, 'b>(standing: &'b Standing<'a>) -> &'b Query<'a> {
    let mut queries = standing.queries.iter();
    let is_page = |query: &&Query| query.command[0] == b'L';
    queries.find(is_page).expect("an L")
}

/// The job before this offset without what asks.
fn quiet(job: &[u8], at: usize) -> Vec<u8> {
    kept(&job[..at], |byte| !format::QUERIES.contains(&byte))
}

/// The engine's list over these candidates.
pub fn of_engine(call: Call, job: &[u8], standing: &Standing) -> Result<Vec<u64>, String> {
    let head = quiet(job, first_page(standing).at);
    let (list, _) = whole(call, Layer::Engine, &[head], 255)?;
    Ok(list)
}

/// The part's list in pages of half its sets, in further jobs with the queries before it and without in
/// turn. Where none fits there is no page.
pub fn check(
    call: Call,
    job: &[u8],
    standing: &Standing,
    fitting: &[u64],
    held: &mut Held,
) -> Result<(), String> {
    let query = first_page(standing);
    if fitting.is_empty() || query.answered + PAGE_END > LONGEST {
        return Ok(());
    }
    let heads = [job[..query.at].to_vec(), quiet(job, query.at)];
    let count = fitting.len().div_ceil(2).clamp(1, 255) as u8;
    let (list, pages) = whole(call, Layer::Part, &heads, count)?;
    if list != fitting {
        let at = query.at;
        return Err(format!(
            "joined pages are not the part's list at offset {at}"
        ));
    }
    held.count(Kind::Joined, 1);
    held.count_if(Kind::SeveralPages, pages > 1);
    Ok(())
}

/// The sets of all pages, and how many pages they took.
fn whole(
    call: Call,
    layer: Layer,
    heads: &[Vec<u8>],
    count: u8,
) -> Result<(Vec<u64>, usize), String> {
    let mut got: Vec<u64> = Vec::new();
    for (pages, head) in heads.iter().cycle().enumerate() {
        let start = got.last().map_or(0, |last| last.wrapping_add(1));
        let answer = last_page(call, layer, head, &page(start, count))?;
        got.extend(sets(&answer));
        let rises = got.windows(2).all(|two| two[0] < two[1]);
        if answer[2] == 0 || answer.len() == 3 || !rises {
            return Ok((got, pages + 1));
        }
    }
    unreachable!("the heads take turns without end")
}

/// What one of the products answers to a page behind a head, in a job that it should accept.
fn last_page(call: Call, layer: Layer, head: &[u8], page: &[u8]) -> Result<Vec<u8>, String> {
    let case = Case {
        job: [head, page, b"E"].concat(),
        behind: Vec::new(),
        room: LONGEST,
    };
    let out = call(layer, &case, &pattern(LONGEST, 0x5a)).outcome();
    if out.number != 0 {
        let number = out.number;
        return Err(format!("{layer:?} refused a further job with {number}"));
    }
    let mut rest = &out.buffer[..out.written];
    for command in format::cut(head).ok_or(CUT)? {
        let width = walk::width(command[0], rest).ok_or(CUT)?;
        rest = rest.get(width..).ok_or(CUT)?;
    }
    let own = rest.strip_suffix(&[0x65]).filter(|own| own.len() >= 3);
    own.map(<[u8]>::to_vec).ok_or(CUT.into())
}
