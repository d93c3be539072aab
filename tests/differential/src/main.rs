//! Compares the engine with a brute-force reference on generated jobs, and checks the stored ones.
//!
//! Arguments, all optional: seed, count of jobs, and the word `trace` to print each job before
//! the engine gets it (for an engine that does not come back).

mod charged;
mod cubes;
mod dump;
mod engine;
mod exact;
mod expanded;
mod format;
mod fresh;
mod generate;
mod implicants;
mod listing;
mod products;
mod ranged;
mod ready;
mod reference;
mod reordered;
mod report;
mod rng;
mod selftest;
mod stored;
mod tally;
mod threads;
mod walk;
mod without_ranges;

use generate::{Case, Ordered};
use reference::Outcome;
use report::{hex, matches, report, report_blocks, report_wrong};
use rng::Rng;
use std::process::ExitCode;
use std::time::{Duration, Instant};
use tally::Tally;

const SEED: u64 = 20_240_229;
const COUNT: usize = 62_000;
/// Each case of this stride is asked twice and, with no more room than this, kept for the threads.
const STRIDE: usize = 50;
const MOST_ROOM_KEPT: usize = 1_000;
const THREADS: usize = 4;

/// What a run has seen so far.
struct Run {
    passed: usize,
    skipped: usize,
    tally: Tally,
    slowest: Duration,
    kept: Vec<(Case, Outcome)>,
    trace: bool,
}

fn main() -> ExitCode {
    let words: Vec<String> = std::env::args().skip(1).collect();
    let number = |i: usize| words.get(i).and_then(|word| word.parse::<u64>().ok());
    let seed = number(0).unwrap_or(SEED);
    let count = number(1).map_or(COUNT, |count| count as usize);
    let mut rng = Rng::new(seed);
    let mut run = Run {
        passed: 0,
        skipped: 0,
        tally: Tally::new(),
        slowest: Duration::ZERO,
        kept: Vec::new(),
        trace: words.iter().any(|word| word == "trace"),
    };
    println!("seed {seed}, {count} jobs");
    let failed = self_tests(&mut rng, &mut run)
        || jobs(&mut rng, &mut run, count)
        || orders(&mut rng, &mut run)
        || records(&mut rng, &mut run)
        || stored_jobs(&mut run);
    let failures = if failed { 1 } else { after_jobs(&run) };
    println!("{} passed, {failures} failed", run.passed);
    ExitCode::from(u8::from(failures > 0))
}

/// The reference alone. Without a right reference nothing else is worth running.
fn self_tests(rng: &mut Rng, run: &mut Run) -> bool {
    let checks = selftest::run(rng);
    checks
        .wrong
        .iter()
        .for_each(|name| println!("the reference is wrong: {name}"));
    println!("reference: {} self tests passed", checks.passed);
    run.passed += checks.passed;
    !checks.wrong.is_empty()
}

/// Compares until the count is reached; true when a job came out differently.
fn jobs(rng: &mut Rng, run: &mut Run, count: usize) -> bool {
    let start = Instant::now();
    let mut cases = generate::on_purpose(rng);
    let mut turn = 0;
    let mut same = true;
    while same && !cases.is_empty() {
        for case in &cases {
            same = one(run, case, turn);
            turn += 1;
            if !same {
                break;
            }
        }
        run.tally.drawn = true;
        let enough = turn - run.skipped >= count;
        cases = if enough {
            Vec::new()
        } else {
            generate::next(rng)
        };
    }
    println!(
        "{} jobs in {:.1} s, slowest call {:.1} ms, {} more too large for the reference",
        turn - run.skipped,
        start.elapsed().as_secs_f64(),
        run.slowest.as_secs_f64() * 1e3,
        run.skipped
    );
    !same
}

/// The jobs made on purpose for another order of their T commands; true when one is wrong.
fn orders(rng: &mut Rng, run: &mut Run) -> bool {
    let start = Instant::now();
    let mut compared = 0;
    for Ordered { case, orders } in generate::orders_on_purpose(rng) {
        for order in orders {
            if run.trace {
                println!("{} room {} order {order:?}", hex(&case.job), case.room);
            }
            match reordered::check_order(&case, &order) {
                Ok(held) => run.tally.add_order_on_purpose(&held),
                Err(wrong) => {
                    println!("MISMATCH: {wrong}\n  job       {}", hex(&case.job));
                    return true;
                }
            }
            compared += 1;
        }
    }
    println!(
        "{compared} jobs in another order in {:.1} s",
        start.elapsed().as_secs_f64()
    );
    run.passed += compared;
    false
}

/// The records that jobs leave, as the program dumps them; true when one is wrong.
fn records(rng: &mut Rng, run: &mut Run) -> bool {
    let start = Instant::now();
    let counts = match dump::run(rng, &mut run.tally, run.trace) {
        Ok(counts) => counts,
        Err(wrong) => {
            println!("MISMATCH: {wrong}");
            return true;
        }
    };
    println!(
        "{} records in {:.1} s, {} more too large for the reference",
        counts.compared,
        start.elapsed().as_secs_f64(),
        counts.skipped
    );
    run.passed += counts.compared;
    run.skipped += counts.skipped;
    false
}

/// The stored jobs; true when an answer is wrong or there is no job.
fn stored_jobs(run: &mut Run) -> bool {
    let start = Instant::now();
    let tally = match stored::run() {
        Ok(tally) => tally,
        Err(wrong) => {
            println!("MISMATCH: {wrong}");
            return true;
        }
    };
    println!(
        "{} stored jobs in {:.1} s: {} checked fully, {} more with pages of few sets, {} in part: {}",
        tally.jobs(),
        start.elapsed().as_secs_f64(),
        tally.full,
        tally.few_sets,
        tally.part.len(),
        tally.part.join(", ")
    );
    println!(
        "{} of their cheapest at other prices checked fully, {} in part",
        tally.at_prices.full, tally.at_prices.part
    );
    println!(
        "N is answered over {} of their tables and refused with 17 over {}",
        tally.multiplied.answered, tally.multiplied.refused
    );
    run.passed += tally.jobs();
    false
}

/// One comparison; false when the engine differs.
fn one(run: &mut Run, case: &Case, turn: usize) -> bool {
    let before = engine::pattern(case.room, turn as u8);
    let Some(expected) = reference::run(&case.job, &before) else {
        run.skipped += 1;
        return true;
    };
    if run.trace {
        println!("{} room {}", hex(&case.job), case.room);
    }
    let start = Instant::now();
    let seen = engine::call(case, &before);
    run.slowest = run.slowest.max(start.elapsed());
    // Nothing is kept between calls: a second call gives the same.
    let again = turn % STRIDE != 0 || engine::call(case, &before) == seen;
    if !matches(&expected, &seen) || !again {
        report(case, &before);
        return false;
    }
    run.passed += 1;
    run.tally.add(&case.job, &expected);
    run.tally.add_blocks_met(&case.job, &expected);
    run.tally.add_ranges_met(&case.job, &expected);
    if !as_promised(run, case, &before, &expected) {
        return false;
    }
    if expected.number == 0 && !accepted(run, &case.job) {
        return false;
    }
    if turn % STRIDE == 0 && case.room <= MOST_ROOM_KEPT {
        run.kept.push((
            case.clone(),
            Outcome {
                buffer: before,
                ..expected
            },
        ));
    }
    true
}

/// What K3, document 000, K6 to K11 say of an outcome on which engine and reference agree.
fn as_promised(run: &mut Run, case: &Case, before: &[u8], expected: &Outcome) -> bool {
    as_by_rows(run, case, before, expected)
        && as_by_points(run, case, before, expected)
        && as_by_prices(run, case, before, expected)
        && as_at_other_prices(run, case, before, expected)
        && as_by_cubes(run, case, before, expected)
        && as_by_pages(run, case, before, expected)
        && as_in_another_order(run, case, before, expected)
        && as_by_blocks(run, case, before, expected)
        && as_by_ranges(run, case, before, expected)
        && as_without_ranges(run, case, before, expected)
}

/// False when the engine does not keep what K3 promises of a job with B.
fn as_by_rows(run: &mut Run, case: &Case, before: &[u8], expected: &Outcome) -> bool {
    match expanded::check(case, before, expected) {
        Ok(held) => held
            .iter()
            .for_each(|held| run.tally.add_blocks(held, expected.number)),
        Err(wrong) => {
            println!("MISMATCH: {wrong}");
            report_blocks(case, before);
            return false;
        }
    }
    true
}

/// False when the answers to L, C and N are not what document 000 says.
fn as_by_points(run: &mut Run, case: &Case, before: &[u8], expected: &Outcome) -> bool {
    match implicants::check(&case.job, expected) {
        Ok(held) => run.tally.add_presence(&held),
        Err(wrong) => {
            println!("MISMATCH: {wrong}");
            report_wrong(case, before, |case, outcome| {
                implicants::check(&case.job, outcome).is_err()
            });
            return false;
        }
    }
    true
}

/// False when the answers to C are not what K6 says.
fn as_by_prices(run: &mut Run, case: &Case, before: &[u8], expected: &Outcome) -> bool {
    match charged::check(&case.job, expected) {
        Ok(held) => run.tally.add_charged(&held),
        Err(wrong) => {
            println!("MISMATCH: {wrong}");
            report_wrong(case, before, |case, outcome| {
                charged::check(&case.job, outcome).is_err()
            });
            return false;
        }
    }
    true
}

/// False when another answer than C's goes by the prices.
fn as_at_other_prices(run: &mut Run, case: &Case, before: &[u8], expected: &Outcome) -> bool {
    match listing::check(case, before, expected) {
        Ok(held) => held
            .iter()
            .for_each(|held| run.tally.add_listing(held, expected.number)),
        Err(wrong) => {
            println!("MISMATCH: {wrong}");
            report_wrong(case, before, |case, outcome| {
                listing::check(case, before, outcome).is_err()
            });
            return false;
        }
    }
    true
}

/// False when the answer to P is not what K7's table gives.
fn as_by_cubes(run: &mut Run, case: &Case, before: &[u8], expected: &Outcome) -> bool {
    match cubes::check(&case.job, expected) {
        Ok(held) => held.iter().for_each(|held| run.tally.add_primes(held)),
        Err(wrong) => {
            println!("MISMATCH: {wrong}");
            report_wrong(case, before, |case, outcome| {
                cubes::check(&case.job, outcome).is_err()
            });
            return false;
        }
    }
    true
}

/// False when the answer to N is not what K8 says of L's pages.
fn as_by_pages(run: &mut Run, case: &Case, before: &[u8], expected: &Outcome) -> bool {
    match products::check(case, expected) {
        Ok(held) => run.tally.add_products(&case.job, &held),
        Err(wrong) => {
            println!("MISMATCH: {wrong}");
            report_wrong(case, before, |case, outcome| {
                products::check(case, outcome).is_err()
            });
            return false;
        }
    }
    true
}

/// False when an accepted job does not come out as K9 says with its T commands in another order.
fn as_in_another_order(run: &mut Run, case: &Case, before: &[u8], expected: &Outcome) -> bool {
    if expected.number != 0 {
        return true;
    }
    match reordered::check(case) {
        Ok(held) => held.iter().for_each(|held| run.tally.add_order(held)),
        Err(wrong) => {
            println!("MISMATCH: {wrong}");
            report_wrong(case, before, |case, outcome| {
                outcome.number == 0 && reordered::check(case).is_err()
            });
            return false;
        }
    }
    true
}

/// False when a job does not come out as K10 says with blocks for its terms.
fn as_by_blocks(run: &mut Run, case: &Case, before: &[u8], expected: &Outcome) -> bool {
    match ready::check(case, before, expected) {
        Ok(held) => held.iter().for_each(|held| run.tally.add_ready(held)),
        Err(wrong) => {
            println!("MISMATCH: {wrong}");
            report_wrong(case, before, |case, outcome| {
                ready::check(case, before, outcome).is_err()
            });
            return false;
        }
    }
    true
}

/// False when the answers to V are not what K11 says.
fn as_by_ranges(run: &mut Run, case: &Case, before: &[u8], expected: &Outcome) -> bool {
    match ranged::check(&case.job, expected) {
        Ok(held) => run.tally.add_ranged(&held),
        Err(wrong) => {
            println!("MISMATCH: {wrong}");
            report_wrong(case, before, |case, outcome| {
                ranged::check(&case.job, outcome).is_err()
            });
            return false;
        }
    }
    true
}

/// False when a job does not answer the other commands as it does without G and V.
fn as_without_ranges(run: &mut Run, case: &Case, before: &[u8], expected: &Outcome) -> bool {
    match without_ranges::check(case, before, expected) {
        Ok(held) => held
            .iter()
            .for_each(|held| run.tally.add_without_ranges(held)),
        Err(wrong) => {
            println!("MISMATCH: {wrong}");
            report_wrong(case, before, |case, outcome| {
                without_ranges::check(case, before, outcome).is_err()
            });
            return false;
        }
    }
    true
}

/// What an accepted job asks; false when the engine does not keep what K2 promises of it.
fn accepted(run: &mut Run, job: &[u8]) -> bool {
    let asked = reference::asked(job).expect("it was run before");
    run.tally.add_asked(job, &asked);
    match fresh::check(job, &asked) {
        Ok(held) => run.tally.add_held(&held),
        Err(wrong) => {
            println!("MISMATCH: {wrong}\n  job       {}", hex(job));
            return false;
        }
    }
    true
}

/// Each number must have come, and each command with each of its own; few jobs may have been
/// skipped, and threads must not disturb each other.
fn after_jobs(run: &Run) -> usize {
    let mut failures = 0;
    let mut complain = |wrong: bool, what: String| {
        if wrong {
            println!("{what}");
            failures += 1;
        }
    };
    run.tally.print();
    for complaint in run.tally.complaints() {
        complain(true, complaint);
    }
    complain(
        run.skipped * 20 > run.passed,
        "too many jobs were too large for the reference".into(),
    );
    complain(
        !threads_agree(&run.kept),
        "calls from several threads disturb each other".into(),
    );
    failures
}

/// The kept cases again, from several threads at once, each in another order.
fn threads_agree(kept: &[(Case, Outcome)]) -> bool {
    let walk = |first: usize| {
        let turn = |i: usize| &kept[(i * (2 * first + 1) + first) % kept.len()];
        (0..kept.len()).all(|i| {
            let (case, was) = turn(i);
            let expected = reference::run(&case.job, &was.buffer).expect("it was run before");
            matches(&expected, &engine::call(case, &was.buffer))
        })
    };
    std::thread::scope(|scope| {
        let walk = &walk;
        let threads: Vec<_> = (0..THREADS).map(|i| scope.spawn(move || walk(i))).collect();
        threads
            .into_iter()
            .all(|thread| thread.join().unwrap_or(false))
    })
}
