//! Wrong parts are seen by the jobs made on purpose for the part; the ones that answer L or other commands
//! otherwise by K12 read a second time, too.

use super::engines::run as part;
use super::mistakes::{all, Mistake};
use super::Checks;
use crate::engine::Seen;
use crate::generate::{part_on_purpose, Case};
use crate::part as second;
use crate::reference::{self, Layer, Outcome, LAYERS};
use crate::rng::Rng;

/// Longer jobs are left out.
const SHORT: usize = 1_500;
const FILL: u8 = 0xa5;

/// What is due at the engine and at the part.
type Job = (Case, [Outcome; 2]);

pub fn run(checks: &mut Checks, rng: &mut Rng) {
    let jobs = jobs(checks, rng);
    never_at_the_engine(checks, &jobs);
    agrees(checks, &jobs);
    seen_on_purpose(checks, &jobs);
    seen_a_second_time(checks, &jobs);
}

fn jobs(checks: &mut Checks, rng: &mut Rng) -> Vec<Job> {
    let mut cases = part_on_purpose(rng);
    cases.retain(|case| case.job.len() <= SHORT);
    // What is alike stands together there: in any order a mistake is seen sooner.
    rng.shuffle(&mut cases);
    let count = cases.len();
    let mut list = Vec::new();
    for case in cases {
        let due = |layer| reference::run_at(layer, &case.job, &vec![FILL; case.room]);
        if let [Some(engine), Some(part)] = LAYERS.map(due) {
            list.push((case, [engine, part]));
        }
    }
    checks.check("no job for the part is too large", list.len() == count);
    list
}

fn told(mistake: Mistake, case: &Case) -> Outcome {
    part(mistake, &case.job, &vec![FILL; case.room])
}

/// 20 is the part's own, and a part in the place of the engine is seen.
fn never_at_the_engine(checks: &mut Checks, jobs: &[Job]) {
    let own = |(_, [engine, _]): &Job| engine.number != 20;
    checks.check("20 at the engine", jobs.iter().all(own));
    let differs = |(_, [engine, part]): &Job| part.number == 20 && engine.number != 20;
    checks.check(
        "not seen: the part for the engine",
        jobs.iter().any(differs),
    );
}

/// Without a mistake, and with what changes nothing.
fn agrees(checks: &mut Checks, jobs: &[Job]) {
    for mistake in [Mistake::Right, Mistake::ByOne, Mistake::Jumps] {
        let right = |(case, [_, due]): &Job| told(mistake, case) == *due;
        let name = format!("the part by the engine's pages, {mistake:?}");
        checks.check(&name, jobs.iter().all(right));
    }
}

fn seen_on_purpose(checks: &mut Checks, jobs: &[Job]) {
    for (mistake, name) in all() {
        let differs = |(case, [_, due]): &Job| told(mistake, case) != *due;
        checks.check(&format!("not seen: {name}"), jobs.iter().any(differs));
    }
}

/// Without the reference at the part: its answers and the engine's alone.
fn seen_a_second_time(checks: &mut Checks, jobs: &[Job]) {
    let held = |mistake: Mistake, (case, [engine, _]): &Job| {
        let call = |layer: Layer, case: &Case, before: &[u8]| called(layer, mistake, case, before);
        second::check_of(&call, case, [engine, &told(mistake, case)])
    };
    // All of them are held to it where the part itself is asked.
    let right = |job: &Job| held(Mistake::Right, job).is_ok();
    let some = &jobs[..jobs.len() / 8];
    checks.check("right answers at the part", some.iter().all(right));
    for (mistake, name) in all() {
        let seen = |job: &Job| held(mistake, job).is_err();
        let name = format!("not seen a second time: {name}");
        checks.check(&name, jobs.iter().any(seen));
    }
}

/// Both products as the checks call them; the engine is the reference's.
fn called(layer: Layer, mistake: Mistake, case: &Case, before: &[u8]) -> Seen {
    let out = match layer {
        Layer::Engine => reference::run(&case.job, before).expect("small enough"),
        Layer::Part => part(mistake, &case.job, before),
    };
    Seen {
        packed: out.packed(),
        buffer: out.buffer,
        guards_kept: true,
        job_kept: true,
    }
}
