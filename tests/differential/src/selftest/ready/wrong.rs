//! Wrong engines are seen by the jobs made on purpose for F; what is asked of answers alone, of blocks
//! for terms and of other prices sees them, too.

use super::engines::{at_cheapest, at_commands, read_so, with_job, Wrong};
use super::places::at_places;
use super::readings::{Reading, HOLDING, TRYING};
use super::{f, xor, Checks, LONGEST};
use crate::charged;
use crate::engine::{pattern, Seen};
use crate::generate::{draft, ready_on_purpose, row, term, Case};
use crate::implicants;
use crate::listing;
use crate::ready;
use crate::reference::{self, Outcome};
use crate::rng::Rng;
use crate::selftest::prices::engines::{right, Engine};
use crate::selftest::{ask_all, both_wanted, marked, priced};

/// Longer jobs are left out but for those with many candidates.
const SHORT: usize = 1_200;

type Job = (Vec<u8>, Outcome);

pub fn run(checks: &mut Checks, rng: &mut Rng) {
    let jobs = jobs(checks, rng);
    seen_on_purpose(checks, &jobs);
    seen_by_points(checks, &jobs);
    seen_by_costs(checks, &jobs);
    seen_by_terms(checks);
    seen_at_prices(checks);
}

/// The jobs made on purpose, those that differ in their buffers once.
fn jobs(checks: &mut Checks, rng: &mut Rng) -> Vec<Job> {
    let mut jobs: Vec<Vec<u8>> = ready_on_purpose(rng).into_iter().map(|c| c.job).collect();
    let many = |job: &[u8]| job.len() < 3_000 && job[1] == 1;
    jobs.retain(|job| job.len() <= SHORT || many(job));
    jobs.sort_unstable();
    jobs.dedup();
    let count = jobs.len();
    let due = |job: &Vec<u8>| reference::run(job, &vec![0xa5; LONGEST]);
    let with_due = |job: Vec<u8>| due(&job).map(|due| (job, due));
    let list: Vec<Job> = jobs.into_iter().filter_map(with_due).collect();
    checks.check("no job for F is too large", list.len() == count);
    list
}

fn seen_on_purpose(checks: &mut Checks, jobs: &[Job]) {
    let mut engines = at_commands();
    engines.extend(at_places());
    for (name, reading) in HOLDING.into_iter().chain(TRYING) {
        let wrong: Wrong = Box::new(move |job| with_job(job, read_so(job, reading), 0));
        engines.push((name.into(), wrong));
    }
    for (name, engine) in at_cheapest() {
        engines.push((name, Box::new(move |job| Some(engine(job)))));
    }
    for (name, engine) in engines {
        let differs = |(job, due): &Job| engine(job).is_some_and(|told| told != *due);
        checks.check(&format!("not seen: {name}"), jobs.iter().any(differs));
    }
    let same: Reading = |_, b| b;
    let kept = jobs.iter().all(|(job, _)| read_so(job, same) == *job);
    checks.check("F as it is", kept);
}

/// Blocks that hold other cells are seen by document 000 in the answers, and right answers pass.
fn seen_by_points(checks: &mut Checks, jobs: &[Job]) {
    let passes = |(job, due): &Job| implicants::check(job, due).is_ok();
    checks.check("right answers over blocks", jobs.iter().all(passes));
    for (name, reading) in HOLDING {
        let wrong = |(job, due): &Job| {
            // The job must be read as far, so that the answers are those of its commands.
            let told = with_job(job, read_so(job, reading), 0);
            let told = told.filter(|told| told.offset == due.offset && told != due);
            told.is_some_and(|told| implicants::check(job, &told).is_err())
        };
        let seen = jobs.iter().any(wrong);
        checks.check(&format!("not seen by points: {name}"), seen);
    }
}

/// Wrong costs are seen by the answers alone.
fn seen_by_costs(checks: &mut Checks, jobs: &[Job]) {
    let passes = |(job, due): &Job| charged::check(job, due).is_ok();
    checks.check("right costs of blocks", jobs.iter().all(passes));
    for (name, engine) in at_cheapest() {
        let wrong = |(job, _): &Job| charged::check(job, &engine(job)).is_err();
        let seen = jobs.iter().any(wrong);
        checks.check(&format!("not seen by the answers: {name}"), seen);
    }
}

fn case_of(job: Vec<u8>, room: usize) -> Case {
    Case {
        job,
        behind: Vec::new(),
        room,
    }
}

/// An engine as the checks call it.
fn called(case: &Case, before: &[u8], engine: &dyn Fn(&[u8]) -> Outcome) -> Seen {
    let mut out = engine(&case.job);
    let end = out.written.min(before.len());
    let mut buffer = before.to_vec();
    buffer[..end].copy_from_slice(&out.buffer[..end]);
    out.buffer = buffer;
    Seen {
        packed: out.packed(),
        buffer: out.buffer,
        guards_kept: true,
        job_kept: true,
    }
}

/// Whether an engine is seen where a block stands for each term of a job, or for some.
fn by_blocks(job: &[u8], engine: &dyn Fn(&[u8]) -> Outcome) -> Result<usize, String> {
    let before = pattern(LONGEST, 0x46);
    let case = case_of(job.to_vec(), LONGEST);
    let due = reference::run(job, &before).expect("small enough");
    let call = |case: &Case, before: &[u8]| called(case, before, engine);
    let held = ready::check_of(call, &case, &before, &due)?;
    Ok(held.map_or(0, |held| held.blocks))
}

/// Cases a, d, f and g, with prices and without, have a block for each term or for some; each wrong
/// reading is seen there but for the ones that no cube shows.
fn seen_by_terms(checks: &mut Checks) {
    let mut jobs: Vec<Vec<u8>> = "adfgh".chars().map(|c| marked(c).job()).collect();
    jobs.extend("adfg".chars().map(|c| priced(marked(c), [50, 7, 3]).job()));
    // One that costs more than a byte has: 50, three literals and two outputs.
    let dear = [vec![row(0, 3, 0)], vec![term(7, 0, 3); 4], ask_all()];
    jobs.push(priced(draft(3, 2, dear), [50, 50, 50]).job());
    let terms = [6, 6, 1, 2, 0, 6, 6, 1, 2, 4];
    for (job, terms) in jobs.iter().zip(terms) {
        let blocks = by_blocks(job, &right);
        checks.check("F for T", blocks.is_ok_and(|blocks| blocks <= terms));
    }
    let all = jobs.iter().any(|job| by_blocks(job, &right) == Ok(6));
    checks.check("F for all T", all);
    let mut seen = |name: &str, engine: &dyn Fn(&[u8]) -> Outcome| {
        let found = jobs.iter().any(|job| by_blocks(job, engine).is_err());
        checks.check(&format!("not seen by terms: {name}"), found);
    };
    for name in [
        "high bit first",
        "bytes the other way round",
        "vertices of the next byte",
        "a block holds nothing",
        "outputs are left aside",
        "the lowest output alone",
        "high byte of the weight first",
        "several outputs are refused",
    ] {
        let mut known = HOLDING.into_iter().chain(TRYING);
        let (_, reading) = known.find(|known| known.0 == name).expect("a reading");
        seen(name, &|job| right(&read_so(job, reading)));
    }
    for (name, engine) in at_cheapest() {
        // The costs of the terms are low but for the prices.
        seen(&name, &|job| engine(job));
    }
}

/// Where all candidates are blocks W changes nothing; an engine whose prices touch them is seen.
fn seen_at_prices(checks: &mut Checks) {
    let blocks = vec![f(1, &[3], 9), f(1, &[1], 4), f(1, &[2], 4)];
    let job = draft(1, 1, [both_wanted(), blocks, ask_all()]);
    let before = pattern(LONGEST, 0x33);
    let held = |engine: &dyn Fn(&[u8]) -> Outcome| {
        // The other prices are drawn by the job.
        let each = (0..20).map(|own| {
            let case = case_of(priced(job.clone(), [own; 3]).job(), LONGEST);
            let own = reference::run(&case.job, &before).expect("small enough");
            let call = |case: &Case, before: &[u8]| called(case, before, engine);
            let held = listing::check_of(call, &case, &before, &own);
            held.map(|held| held.map_or(0, |held| held.of_blocks))
        });
        each.sum::<Result<usize, String>>()
    };
    checks.check("blocks at other prices", held(&right) == Ok(20));
    let touched = [
        "a block costs a term more",
        "a block's connections are charged",
        "a block's vertices are charged as literals",
    ];
    for (name, engine) in at_cheapest() {
        let engine: Engine = engine;
        if touched.contains(&&name[..]) {
            let seen = held(&|job| engine(job)).is_err();
            checks.check(&format!("not seen at other prices: {name}"), seen);
        }
    }
    // With a term among them C may answer otherwise.
    let job = priced(xor(5), [0, 0, 0]).job();
    let own = reference::run(&job, &before).expect("small enough");
    let call = |case: &Case, before: &[u8]| called(case, before, &right);
    let held = listing::check_of(call, &case_of(job, LONGEST), &before, &own);
    let right = held.is_ok_and(|held| held.is_some_and(|h| h.of_blocks == 0 && h.other_cheapest));
    checks.check("a block and terms at other prices", right);
    let row_alone = draft(1, 1, [vec![row(0, 1, 0)], vec![f(1, &[1], 850)], ask_all()]);
    let job = priced(row_alone, [50, 50, 50]).job();
    checks.accepts("850 at 50", &job, &super::answers(&[1], 850, 1));
}
