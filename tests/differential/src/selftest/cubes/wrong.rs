//! Wrong engines are seen by the jobs made on purpose for P, and by their answers alone.

use super::engines::Engine;
use super::mistakes::{Mistake, MISTAKES};
use super::Checks;
use crate::cubes;
use crate::format;
use crate::generate::cubes_on_purpose;
use crate::reference::{self, cube_number, spread, Outcome, Table, ENTRIES};
use crate::rng::Rng;
use crate::walk;
use std::collections::{BTreeMap, BTreeSet};

type Answer = Result<Vec<u8>, u64>;

/// A job up to its P, and what P finds and is due to answer.
struct Job {
    head: Vec<u8>,
    table: Table,
    due: Answer,
}

pub fn run(checks: &mut Checks, rng: &mut Rng) {
    let jobs = jobs(rng);
    for right in [Mistake::Nothing, Mistake::LeftInValue].map(Engine::with) {
        for job in &jobs {
            checks.check("P by the table", right.answer(&job.table) == job.due);
        }
    }
    every_cube(checks, &jobs);
    for (name, mistake) in MISTAKES {
        seen(checks, &jobs, name, &Engine::with(mistake));
    }
    for byte in 0..=255 {
        wrong_constants(checks, &jobs, byte);
    }
}

/// Each of the 6,561 cubes of eight inputs is a prime of some job, so that each entry is seen.
fn every_cube(checks: &mut Checks, jobs: &[Job]) {
    let of_eight = jobs.iter().filter(|job| job.table.n == 8);
    let primes = of_eight.flat_map(Job::primes);
    let numbers: BTreeSet<usize> = primes.map(|t| cube_number(t[0], t[1])).collect();
    checks.check("each cube is a prime", numbers.len() == ENTRIES);
}

/// One more, and that of another byte, where entries are filled, read, or both. It is asked of the
/// jobs that have a prime of this care or value.
fn wrong_constants(checks: &mut Checks, jobs: &[Job], byte: u8) {
    let named = jobs.iter().filter(|job| job.names(byte));
    for wrong in [spread(byte) + 1, spread(byte ^ 0x80)] {
        for places in [[true, true], [true, false], [false, true]] {
            let name = format!("{wrong} for {byte}, filled and read by it: {places:?}");
            let engine = Engine::with_constant(byte, wrong, places);
            seen(checks, named.clone(), &name, &engine);
        }
    }
}

impl Job {
    /// Care, value and outputs of each prime, where P is answered.
    fn primes(&self) -> impl Iterator<Item = &[u8]> {
        self.due.iter().flat_map(|answer| answer[2..].chunks(3))
    }

    /// Whether a prime has this care or value.
    fn names(&self, byte: u8) -> bool {
        self.primes().any(|t| t[0] == byte || t[1] == byte)
    }
}

/// The jobs made on purpose whose P is answered or refused with 11, each table once.
fn jobs(rng: &mut Rng) -> Vec<Job> {
    let mut list = BTreeMap::new();
    for case in cubes_on_purpose(rng) {
        let out = reference::run(&case.job, &vec![0xa5; case.room]).expect("small enough");
        let (table, answer) = walk::primes(&case.job, &out).expect("each has a P");
        if answer != Err(14) {
            let due = answer.map(<[u8]>::to_vec);
            let head = up_to_primes(&case.job).to_vec();
            let key = (table.n, table.m, table.on, table.dc);
            list.insert(key, Job { head, table, due });
        }
    }
    list.into_values().collect()
}

fn up_to_primes(job: &[u8]) -> &[u8] {
    let commands = format::cut(job).expect("whole commands");
    let before = commands.iter().take_while(|command| command[0] != b'P');
    &job[..=before.map(|command| command.len()).sum()]
}

/// There is a job whose answer is another one, and K7's check of answers does not let that pass.
fn seen<'a>(
    checks: &mut Checks,
    jobs: impl IntoIterator<Item = &'a Job>,
    name: &str,
    engine: &Engine,
) {
    let mut told = jobs.into_iter().map(|job| (job, engine.answer(&job.table)));
    let Some((job, told)) = told.find(|(job, told)| *told != job.due) else {
        return checks.check(&format!("not seen: {name}"), false);
    };
    let passes = cubes::check(&job.head, &outcome(&job.head, &told)).is_ok();
    checks.check(&format!("not seen by the answer: {name}"), !passes);
}

/// That of a job which ends behind its P.
fn outcome(head: &[u8], answer: &Answer) -> Outcome {
    let (number, offset) = match answer {
        Ok(_) => (2, head.len()),
        Err(number) => (*number, head.len() - 1),
    };
    let bytes = answer.clone().unwrap_or_default();
    let mut buffer = bytes.clone();
    buffer.resize(bytes.len().max(200), 0xa5);
    Outcome {
        number,
        offset,
        written: bytes.len(),
        buffer,
    }
}
