//! Wrong engines are seen by the jobs made on purpose for N, and wrong lists by L's pages.

use super::engines::{Answer, Engine};
use super::mistakes::{Mistake, MISTAKES};
use super::{answer, Checks, LONGEST};
use crate::engine::Seen;
use crate::format;
use crate::generate::{products_on_purpose, put, Case};
use crate::implicants;
use crate::listing;
use crate::products;
use crate::reference::{self, Candidate, Outcome, Table};
use crate::rng::Rng;
use crate::selftest::priced;
use crate::walk::walk;
use std::collections::BTreeMap;

/// Up to this many candidates every job is looked at for a wrong list.
const FEW: usize = 8;

/// An N, and what it is due to give.
struct Job {
    /// The job before it, without queries.
    head: Vec<u8>,
    table: Table,
    candidates: Vec<Candidate>,
    free: usize,
    due: Answer,
}

pub fn run(checks: &mut Checks, rng: &mut Rng) {
    let all = products_on_purpose(rng);
    let count = all.len();
    let due = |case: &Case| reference::run(&case.job, &vec![0xa5; case.room]);
    let with_due = |case: Case| due(&case).map(|due| (case, due));
    let cases: Vec<(Case, Outcome)> = all.into_iter().filter_map(with_due).collect();
    checks.check("no job for N is too large", cases.len() == count);
    let jobs = jobs(&cases);
    for mistake in [
        Mistake::Nothing,
        Mistake::JoinedOnce,
        Mistake::RepeatsLeftOut,
    ] {
        let engine = Engine::with(mistake);
        let right = |job: &Job| engine.gives(job).as_ref() == Some(&job.due);
        checks.check("N by multiplication", jobs.iter().all(right));
    }
    for (name, mistake) in MISTAKES {
        seen(checks, &jobs, name, &Engine::with(mistake));
    }
    places(checks, &cases);
    lists(checks);
    at_prices(checks);
}

impl Engine {
    fn gives(&self, job: &Job) -> Option<Answer> {
        self.answer(&job.table, &job.candidates, job.free)
    }
}

/// The reference as an engine.
pub fn called(case: &Case, before: &[u8]) -> Seen {
    let out = reference::run(&case.job, before).expect("small enough");
    Seen {
        packed: out.packed(),
        buffer: out.buffer,
        guards_kept: true,
        job_kept: true,
    }
}

pub fn case_of(job: Vec<u8>) -> Case {
    Case {
        job,
        behind: Vec::new(),
        room: LONGEST,
    }
}

/// The N commands of the jobs made on purpose, those over the same table, candidates and room once.
fn jobs(cases: &[(Case, Outcome)]) -> Vec<Job> {
    let mut list = BTreeMap::new();
    for (case, out) in cases {
        for standing in walk(&case.job, out).expect("sound answers") {
            for query in standing.queries.iter().filter(|q| q.command[0] == b'N') {
                let (table, candidates) = (standing.table.clone(), standing.candidates.clone());
                // Where it is answered any room does that has the answer.
                let free = match query.answer {
                    Ok(_) => LONGEST,
                    Err(_) => case.room - out.written,
                };
                let due = query.answer.map(<[u8]>::to_vec);
                let bytes: Vec<Vec<u8>> = candidates.iter().map(put).collect();
                let key = (table.n, table.m, table.on, table.dc, bytes, free);
                list.entry(key).or_insert(Job {
                    head: head(&table, &candidates),
                    table,
                    candidates,
                    free,
                    due,
                });
            }
        }
    }
    let mut jobs: Vec<Job> = list.into_values().collect();
    // What takes longer comes last.
    jobs.sort_by_key(|job| job.candidates.len());
    jobs
}

/// A job up to its queries.
fn head(table: &Table, candidates: &[Candidate]) -> Vec<u8> {
    let mut job = vec![b'I', table.n as u8, table.m as u8];
    let with_row = (0..table.vertices()).filter(|&v| table.on[v] | table.dc[v] != 0);
    with_row.for_each(|v| job.extend([b'R', v as u8, table.on[v], table.dc[v]]));
    candidates.iter().for_each(|c| job.extend(put(c)));
    job
}

/// There is a job whose answer or number is another one. Over few candidates, where both answer, the
/// pages do not let that pass.
fn seen(checks: &mut Checks, jobs: &[Job], name: &str, engine: &Engine) {
    let differs = |job: &Job| engine.gives(job).is_some_and(|told| told != job.due);
    let found = jobs.iter().find(|job| differs(job));
    checks.check(&format!("not seen: {name}"), found.is_some());
    let few = jobs.iter().filter(|job| job.candidates.len() <= FEW);
    for job in few.chain(found).filter(|job| job.due.is_ok()) {
        let told = engine.gives(job);
        if let Some(Ok(told)) = told.filter(|told| *told != job.due) {
            let whole = [&job.head, &b"NE"[..]].concat();
            let passes = passes(whole, &told);
            return checks.check(&format!("not seen by the pages: {name}"), !passes);
        }
    }
}

/// Whether an N that answers so, before E, is let pass.
fn passes(job: Vec<u8>, told: &[u8]) -> bool {
    let out = Outcome::accepted(&job, [told, &[0x65]].concat());
    products::check_of(called, &case_of(job), &out).is_ok()
}

/// Engines for which N does not count as an L, or stands elsewhere.
fn places(checks: &mut Checks, cases: &[(Case, Outcome)]) {
    let short = |(case, _): &&(Case, Outcome)| case.job.len() <= 60 && case.room == 64;
    let cases: Vec<&(Case, Outcome)> = cases.iter().filter(short).collect();
    let mut seen = |name: String, engine: &dyn Fn(&Case) -> Option<Outcome>| {
        let mut told = cases.iter().map(|(case, due)| (engine(case), due));
        let found = told.any(|(told, due)| told.is_some_and(|told| told != *due));
        checks.check(&format!("not seen: {name}"), found);
    };
    for byte in *b"WRBTP" {
        let name = format!("{} is taken behind N", char::from(byte));
        seen(name, &|case| due_of_moved(case, byte));
    }
    for byte in *b"ADLCNE" {
        let name = format!("{} is refused behind N", char::from(byte));
        seen(name, &|case| refused_behind(case, b'N', byte));
    }
    for byte in *b"IWRBTADPLC" {
        let name = format!("N is refused behind {}", char::from(byte));
        seen(name, &|case| refused_behind(case, byte, b'N'));
    }
    seen("3 at N".into(), &|case| {
        let at = pair(&case.job, b'I', b'N')?;
        Some(stopped(case, at, 3))
    });
}

/// Where the second command follows the first.
fn pair(job: &[u8], first: u8, second: u8) -> Option<usize> {
    let commands = format::cut(job)?;
    let follows = |two: &[&[u8]]| two[0][0] == first && two[1][0] == second;
    let place = commands.windows(2).position(follows)? + 1;
    Some(commands[..place].iter().map(|command| command.len()).sum())
}

/// The outcome that ends with this number at an offset.
fn stopped(case: &Case, at: usize, number: u64) -> Outcome {
    let before = reference::run(&case.job[..at], &vec![0xa5; case.room]);
    let mut out = before.expect("small enough");
    // Else it was refused before.
    if out.number == 2 {
        out.number = number;
    }
    out
}

fn refused_behind(case: &Case, first: u8, second: u8) -> Option<Outcome> {
    let at = pair(&case.job, first, second)?;
    Some(stopped(case, at, 4))
}

/// The outcome of the job whose command behind N has been moved right behind its I, and so is
/// allowed.
fn due_of_moved(case: &Case, byte: u8) -> Option<Outcome> {
    let at = pair(&case.job, b'N', byte)?;
    let width = 1 + format::find(byte)?.width();
    let (before, rest) = case.job.split_at(at);
    let (moved, behind) = rest.split_at_checked(width)?;
    let job = [&before[..3], moved, &before[3..], behind].concat();
    reference::run(&job, &vec![0xa5; case.room])
}

/// Lists that are not due, over case a and over nothing: the right one passes.
fn lists(checks: &mut Checks) {
    let case_a = super::multiplied(super::marked('a')).job();
    let mut told = |name: &str, sets: &[u64], due: bool| {
        let passes = passes(case_a.clone(), &answer(sets));
        checks.check(&format!("list of case a: {name}"), passes == due);
        let out = Outcome::accepted(&case_a, [answer(sets), vec![0x65]].concat());
        let by_points = implicants::check(&case_a, &out).is_ok();
        checks.check(
            &format!("list of case a by points: {name}"),
            by_points == due,
        );
    };
    told("as due", &[11, 22, 26, 41, 52, 56], true);
    told("the first left out", &[22, 26, 41, 52, 56], false);
    told("the last left out", &[11, 22, 26, 41, 52], false);
    told("one left out", &[11, 22, 26, 52, 56], false);
    told("a redundant one more", &[11, 22, 26, 41, 43, 52, 56], false);
    told("a redundant one instead", &[11, 22, 26, 43, 52, 56], false);
    told("no cover", &[10, 22, 26, 41, 52, 56], false);
    told("two exchanged", &[22, 11, 26, 41, 52, 56], false);
    told("one twice", &[11, 11, 22, 26, 41, 52, 56], false);
    told("none", &[], false);
    let nothing = || b"I\x01\x01NE".to_vec();
    checks.check("list of nothing", passes(nothing(), &answer(&[0])));
    checks.check("no list of nothing", !passes(nothing(), &answer(&[])));
    in_one_job(checks);
}

/// The pages of the same job are looked at, too: two N with other sets, and N beside a page.
fn in_one_job(checks: &mut Checks) {
    let head = &super::multiplied(super::marked('a')).job()[..43];
    let list = [11, 22, 26, 41, 52, 56];
    let page = super::page(0, 6);
    let told = |queries: &[&[u8]], answers: &[Vec<u8>]| {
        let job = [head, &queries.concat(), b"E"].concat();
        let answers = [answers.concat(), vec![0x65]].concat();
        let out = Outcome::accepted(&job, answers);
        // An engine whose further jobs are right whatever they are.
        let yes = |case: &Case, _: &[u8]| called(case, &vec![0; case.room]);
        products::check_of(yes, &case_of(job), &out).is_ok()
    };
    let paged = |sets: &[u64]| {
        let mut bytes = answer(sets);
        bytes[0] = 0x6c;
        bytes
    };
    let n = &b"N"[..];
    let right = [answer(&list), paged(&list)];
    checks.check("N and a page", told(&[n, &page], &right));
    let other = [answer(&list), paged(&list[..5])];
    checks.check("N and a shorter page", !told(&[n, &page], &other));
    let twice = [answer(&list), answer(&list)];
    checks.check("N and N", told(&[n, n], &twice));
    let other = [answer(&list), answer(&list[1..])];
    checks.check("N and another N", !told(&[n, n], &other));
}

/// Products that go by the prices are seen, whether W is there or not.
fn at_prices(checks: &mut Checks) {
    let case = case_of(priced(super::multiplied(super::marked('a')), [4, 3, 2]).job());
    let before = vec![0xa5; LONGEST];
    let own = reference::run(&case.job, &before).expect("small enough");
    let held = |wrong: fn(&[u8]) -> bool| {
        let call = |case: &Case, before: &[u8]| {
            let mut seen = called(case, before);
            seen.buffer[3] ^= u8::from(wrong(&case.job));
            seen
        };
        let held = listing::check_of(call, &case, &before, &own);
        held.map(|held| held.map_or(0, |held| held.products))
    };
    checks.check("products at other prices", held(|_| false) == Ok(1));
    let with = held(|job| job[3] == b'W');
    checks.check("not seen: another product with W", with.is_err());
    let without = held(|job| job[3] != b'W');
    checks.check("not seen: another product without W", without.is_err());
}
