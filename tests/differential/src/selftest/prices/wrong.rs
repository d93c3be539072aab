//! Wrong engines are seen by the jobs made on purpose, and what is asked of answers alone sees
//! wrong ones too.

use super::engines::{at_cheapest, at_prices, right, taken_behind, without, Engine};
use super::{marked, priced, Checks, LONGEST};
use crate::charged;
use crate::engine::{pattern, Seen};
use crate::generate::{prices_on_purpose, Case};
use crate::implicants;
use crate::listing;
use crate::reference::{self, Outcome};
use crate::rng::Rng;

/// Longer jobs are left out: what these engines do wrong is seen before.
const SHORT: usize = 400;

pub fn run(checks: &mut Checks, rng: &mut Rng) {
    let jobs = jobs(rng);
    seen_on_purpose(checks, &jobs);
    seen_by_answers(checks, &jobs);
    free_sets(checks);
    listings(checks);
}

/// The jobs made on purpose for W, those that differ in their buffers once.
fn jobs(rng: &mut Rng) -> Vec<(Vec<u8>, Outcome)> {
    let mut jobs: Vec<Vec<u8>> = prices_on_purpose(rng).into_iter().map(|c| c.job).collect();
    jobs.retain(|job| job.len() <= SHORT);
    jobs.sort_unstable();
    jobs.dedup();
    // Of the drawn ones some are more work than the reference takes on.
    let due = |job: &Vec<u8>| reference::run(job, &vec![0xa5; LONGEST]);
    let with_due = |job: Vec<u8>| due(&job).map(|due| (job, due));
    jobs.into_iter().filter_map(with_due).collect()
}

fn seen_on_purpose(checks: &mut Checks, jobs: &[(Vec<u8>, Outcome)]) {
    let by_name = |(name, engine): (&str, Engine)| (name.to_string(), engine);
    let mut engines: Vec<(String, Engine)> = at_prices().into_iter().map(by_name).collect();
    engines.extend(taken_behind());
    engines.extend(at_cheapest());
    engines.push(("prices are left aside".into(), Box::new(without)));
    for (name, engine) in engines {
        let seen = jobs.iter().any(|(job, due)| engine(job) != *due);
        checks.check(&format!("not seen: {name}"), seen);
    }
}

/// The right answers pass; another cheapest is seen by the job and the answers alone.
fn seen_by_answers(checks: &mut Checks, jobs: &[(Vec<u8>, Outcome)]) {
    let passes = |(job, due): &(Vec<u8>, Outcome)| charged::check(job, due).is_ok();
    checks.check("right costs", jobs.iter().all(passes));
    for (name, engine) in at_cheapest() {
        let wrong = |(job, _): &&(Vec<u8>, Outcome)| charged::check(job, &engine(job)).is_err();
        let seen = jobs.iter().any(|job| wrong(&job));
        checks.check(&format!("not seen by the answers: {name}"), seen);
        let each = jobs.iter().filter(|(job, due)| engine(job) != *due);
        let all = each.clone().all(|job| wrong(&job) || !few(&job.0));
        checks.check(&format!("not always seen by the answers: {name}"), all);
    }
}

/// Whether every set is tried: few candidates stand, or the job has no accepted C.
fn few(job: &[u8]) -> bool {
    reference::asked(job)
        .is_some_and(|asked| asked.queries.iter().all(|q| q.candidates.len() <= 10))
}

/// Where nothing is charged any set costs 0: only irredundant covers may be told, and the first.
fn free_sets(checks: &mut Checks) {
    let job = priced(marked('a'), [0, 0, 0]).job();
    let told = |set: u8| {
        let mut out = right(&job);
        // L answers with 51 bytes, C with its cost and set behind them.
        out.buffer[54] = set;
        out
    };
    checks.check("the first set", charged::check(&job, &told(11)).is_ok());
    for (set, name) in [
        (63, "all candidates for nothing"),
        (43, "a redundant cover for nothing"),
        (10, "no cover for nothing"),
        (22, "another cover for nothing"),
        (0, "nothing for nothing"),
    ] {
        let seen = charged::check(&job, &told(set)).is_err();
        checks.check(&format!("not seen: {name}"), seen);
        let redundant = implicants::check(&job, &told(set)).is_err();
        let due = set != 22;
        checks.check(&format!("irredundant: {name}"), redundant == due);
    }
}

/// An engine as the listing check calls it, changed by what it is asked.
fn called(case: &Case, before: &[u8], change: impl Fn(&[u8], &mut Outcome)) -> Seen {
    let mut out = reference::run(&case.job, before).expect("small enough");
    change(&case.job, &mut out);
    Seen {
        packed: out.packed(),
        buffer: out.buffer,
        guards_kept: true,
        job_kept: true,
    }
}

/// Engines that go by W where they should not, or that do not where they should.
const LISTERS: [(&str, fn(&[u8], &mut Outcome)); 6] = [
    ("another set with W", |job, out| {
        out.buffer[3] ^= u8::from(job[3] == b'W');
    }),
    ("another set without W", |job, out| {
        out.buffer[3] ^= u8::from(job[3] != b'W');
    }),
    ("one more with W", |job, out| {
        out.buffer[2] ^= u8::from(job[3] == b'W');
    }),
    ("a cost by other prices", |_, out| out.buffer[52] ^= 1),
    ("a byte behind the answers", |_, out| out.buffer[64] ^= 1),
    ("the offset of the job with W", |_, out| out.offset = 59),
];

/// Pages that go by the prices are seen, whether W is there or not.
fn listings(checks: &mut Checks) {
    let before = pattern(LONGEST, 0x33);
    let case = Case {
        job: priced(marked('a'), [4, 3, 2]).job(),
        behind: Vec::new(),
        room: before.len(),
    };
    let own = reference::run(&case.job, &before).expect("small enough");
    let held = |change: fn(&[u8], &mut Outcome)| {
        let call = |case: &Case, before: &[u8]| called(case, before, change);
        let held = listing::check_of(call, &case, &before, &own);
        held.map(|held| held.map_or(0, |held| held.with_sets))
    };
    checks.check("listing", held(|_, _| {}) == Ok(1));
    for (name, change) in LISTERS {
        checks.check(&format!("not seen: {name}"), held(change).is_err());
    }
}
