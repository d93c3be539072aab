//! Wrong engines are seen by the jobs made on purpose for G and V; those with other lists by the
//! answers alone, too, and those with another cheapest where G and V are left out.

use super::engines::run as engine;
use super::mistakes::{all, seen_by_answers, Mistake, AT_OTHERS};
use super::Checks;
use crate::engine::Seen;
use crate::generate::{ranges_on_purpose, Case};
use crate::ranged;
use crate::reference::{self, Outcome};
use crate::rng::Rng;
use crate::without_ranges;

/// Longer jobs are left out but for those with many candidates.
const SHORT: usize = 1_500;
const FILL: u8 = 0xa5;

type Job = (Case, Outcome);

pub fn run(checks: &mut Checks, rng: &mut Rng) {
    let jobs = jobs(checks, rng);
    agrees(checks, &jobs);
    seen_on_purpose(checks, &jobs);
    seen_by_themselves(checks, &jobs);
    seen_at_others(checks, &jobs);
}

fn jobs(checks: &mut Checks, rng: &mut Rng) -> Vec<Job> {
    let mut cases = ranges_on_purpose(rng);
    cases.retain(|case| case.job.len() <= SHORT);
    let count = cases.len();
    let due = |case: &Case| reference::run(&case.job, &vec![FILL; case.room]);
    let with_due = |case: Case| due(&case).map(|due| (case, due));
    let list: Vec<Job> = cases.into_iter().filter_map(with_due).collect();
    checks.check("no job for G and V is too large", list.len() == count);
    list
}

fn told(mistake: Mistake, case: &Case) -> Outcome {
    engine(mistake, &case.job, &vec![FILL; case.room])
}

/// Without a mistake, and with what changes nothing.
fn agrees(checks: &mut Checks, jobs: &[Job]) {
    for mistake in [Mistake::Right, Mistake::EveryCover] {
        let right = |(case, due): &Job| told(mistake, case) == *due;
        let name = format!("the engine for G and V, {mistake:?}");
        checks.check(&name, jobs.iter().all(right));
    }
    let held = |(case, due): &Job| ranged::check(&case.job, due).is_ok();
    checks.check("right answers to V", jobs.iter().all(held));
}

fn seen_on_purpose(checks: &mut Checks, jobs: &[Job]) {
    for (mistake, name) in all() {
        let differs = |(case, due): &Job| told(mistake, case) != *due;
        checks.check(&format!("not seen: {name}"), jobs.iter().any(differs));
    }
}

/// By K11 read a second time, without the reference.
fn seen_by_themselves(checks: &mut Checks, jobs: &[Job]) {
    for (mistake, name) in seen_by_answers() {
        let seen = |(case, _): &Job| ranged::check(&case.job, &told(mistake, case)).is_err();
        let name = format!("not seen by the answers: {name}");
        checks.check(&name, jobs.iter().any(seen));
    }
}

/// A job that has another cheapest than without G and V is seen.
fn seen_at_others(checks: &mut Checks, jobs: &[Job]) {
    let held = |mistake: Mistake, case: &Case| {
        let before = vec![FILL; case.room];
        let call = |case: &Case, before: &[u8]| called(mistake, case, before);
        let own = engine(mistake, &case.job, &before);
        without_ranges::check_of(call, case, &before, &own)
    };
    let right = |(case, _): &Job| held(Mistake::Right, case).is_ok();
    checks.check("the same without G and V", jobs.iter().all(right));
    for mistake in AT_OTHERS {
        let seen = |(case, _): &Job| held(mistake, case).is_err();
        let name = format!("not seen without G and V: {mistake:?}");
        checks.check(&name, jobs.iter().any(seen));
    }
}

/// An engine as the checks call it.
fn called(mistake: Mistake, case: &Case, before: &[u8]) -> Seen {
    let out = engine(mistake, &case.job, before);
    Seen {
        packed: out.packed(),
        buffer: out.buffer,
        guards_kept: true,
        job_kept: true,
    }
}
