//! N on small tables, worked out by hand from K8: the products cell by cell, its answers, its places
//! and its refusals.

mod engines;
mod mistakes;
mod places;
mod wrong;

use super::{both_wanted, bytes, example_primes, marked, terms, Checks, LONGEST};
use crate::format::sets;
use crate::generate::{
    by_orders, counted, draft, drawn_plan, mixed, page, random_table, row, terms_for, Draft, Plan,
};
use crate::products;
use crate::reference::{
    self, holders, joined, next_by_pairs, next_by_size, of_terms, Candidate, Covers, Products,
    Table, MOST_PRODUCTS,
};
use crate::rng::Rng;
use crate::walk::walk;
use engines::Engine;
use mistakes::Mistake;

/// The job with N for its queries.
pub fn multiplied(mut draft: Draft) -> Draft {
    draft
        .commands
        .retain(|command| !b"LC".contains(&command[0]));
    let end = draft.commands.len() - 1;
    draft.commands.insert(end, vec![b'N']);
    draft
}

pub fn run(checks: &mut Checks, rng: &mut Rng) {
    cell_by_cell(checks);
    joins(checks);
    marked_cases(checks);
    small_tables(checks);
    beside_pages(checks);
    counts(checks);
    orders(checks);
    limits(checks, rng);
    two_ways(checks, rng);
    drawn(checks, rng);
    places::run(checks);
    wrong::run(checks, rng);
}

/// What remains at each wanted cell of the marked cases, by vertex, then output. In a and c these
/// are (1, 0), (2, 0), (2, 1) and (3, 1); d has (0, 0) before these and (1, 1) between.
const REMAIN: [(char, &[&[u64]]); 6] = [
    (
        'a',
        &[
            &[2, 32],
            &[3, 18, 33, 48],
            &[11, 18, 41, 48],
            &[11, 22, 26, 41, 52, 56],
        ],
    ),
    (
        'c',
        &[
            &[4, 16],
            &[5, 17, 36, 48],
            &[13, 25, 36, 48],
            &[13, 25, 38, 44, 50, 56],
        ],
    ),
    (
        'd',
        &[
            &[1, 32],
            &[3, 32],
            &[3, 34, 36],
            &[3, 37, 50, 52],
            &[11, 19, 45, 50, 52],
            &[11, 23, 45, 52, 58],
        ],
    ),
    ('e', &[]),
    ('f', &[&[1], &[1]]),
    ('g', &[&[1, 2], &[1, 2]]),
];

/// Table and candidates of a job at its first query.
fn problem(job: &[u8]) -> (Table, Vec<Candidate>) {
    let outcome = reference::run(job, &[0; LONGEST]).expect("small enough");
    let standing = walk(job, &outcome).expect("sound answers").remove(0);
    (standing.table, standing.candidates)
}

fn cell_by_cell(checks: &mut Checks) {
    for (case, due) in REMAIN {
        let (table, candidates) = problem(&marked(case).job());
        for way in [next_by_pairs, next_by_size] {
            let mut products = vec![0];
            let mut seen = Vec::new();
            for holders in holders(&table, &candidates) {
                products = way(&products, &holders).expect("few");
                seen.push(products.clone());
            }
            checks.check(&format!("products of case {case}"), seen == due);
        }
    }
    let (table, candidates) = problem(&marked('h').job());
    let none = reference::products(&table, &candidates) == Products::None;
    checks.check("products of case h", none);
}

/// At (2, 1) of case a terms 4 and 5 are joined: 19 and 49 contain 18 and 48, and so do 26 and 56.
fn joins(checks: &mut Checks) {
    let before = [3, 18, 33, 48];
    let all = [11, 18, 19, 26, 41, 48, 49, 56];
    checks.check("joins of case a", joined(&before, &[8, 16]) == all);
    // Both candidates of case g hold both cells: 1 and 2, and 3 by two ways.
    checks.check("joins of case g", joined(&[1, 2], &[1, 2]) == [1, 2, 3]);
    checks.check("no members", joined(&[0], &[4, 8]) == [4, 8]);
}

/// N's answer.
fn answer(sets: &[u64]) -> Vec<u8> {
    let mut all = vec![0x6e];
    all.extend((sets.len() as u16).to_le_bytes());
    sets.iter().for_each(|set| all.extend(set.to_le_bytes()));
    all
}

/// The same, and E's answer behind it.
fn answers(sets: &[u64]) -> Vec<u8> {
    [answer(sets), vec![0x65]].concat()
}

fn marked_cases(checks: &mut Checks) {
    for (case, remain) in REMAIN {
        let last = remain.last().copied().unwrap_or(&[0]);
        let head = if case == 'c' {
            example_primes()
        } else {
            vec![]
        };
        let due = [head, answers(last)].concat();
        let job = multiplied(marked(case)).job();
        checks.accepts(&format!("N in case {case}"), &job, &due);
    }
    let job = multiplied(marked('h')).job();
    checks.refuses("N in case h", &job, LONGEST, (12, 11, 0));
    let hex = "6e 06 00 0b 00 00 00 00 00 00 00 16 00 00 00 00 00 00 00 \
        1a 00 00 00 00 00 00 00 29 00 00 00 00 00 00 00 34 00 00 00 00 00 00 00 \
        38 00 00 00 00 00 00 00 65";
    let job = multiplied(marked('a')).job();
    checks.accepts("N in case a, its bytes", &job, &bytes(hex));
}

/// Nothing wanted, with candidates and without; a cell that all hold; a candidate that holds
/// nothing wanted; and x with every cell, beside pairs: it is in no other product.
fn small_tables(checks: &mut Checks) {
    let n = || vec![vec![b'N']];
    let nothing = bytes("6e 01 00 00 00 00 00 00 00 00 00 65");
    checks.accepts("N of nothing", &bytes("49 08 08 4e 45"), &nothing);
    let free = draft(1, 1, [vec![row(0, 0, 1)], terms(&[[1, 0, 1]]), n()]);
    checks.accepts("N of free cells", &free.job(), &nothing);
    let thrice = draft(1, 1, [both_wanted(), terms(&[[0, 0, 1]; 3]), n()]);
    checks.accepts("N of three alike", &thrice.job(), &answers(&[1, 2, 4]));
    let rows = vec![row(0, 1, 0), row(1, 0, 1)];
    let idle = draft(1, 1, [rows, terms(&[[1, 1, 1], [1, 0, 1]]), n()]);
    checks.accepts("N with an idle candidate", &idle.job(), &answers(&[2]));
    // Candidates 0 and 1 hold vertex 0, 2 and 3 vertex 1, and 4 holds both.
    let list = [[1, 0, 1], [1, 0, 1], [1, 1, 1], [1, 1, 1], [0, 0, 1]];
    let pairs = draft(1, 1, [both_wanted(), terms(&list), n()]);
    checks.accepts(
        "N of x and pairs",
        &pairs.job(),
        &answers(&[5, 6, 9, 10, 16]),
    );
    let first = [[0, 0, 1], [1, 0, 1], [1, 1, 1], [1, 1, 1]];
    let one_more = draft(1, 1, [both_wanted(), terms(&first), n()]);
    checks.accepts("N of x first", &one_more.job(), &answers(&[1, 6, 10]));
}

/// N before, between and behind pages, and what `products.rs` makes of that.
fn beside_pages(checks: &mut Checks) {
    let pages = [page(0, 2), page(23, 2), page(42, 2)];
    for (place, due) in [
        (0, [1, 0, 0]),
        (1, [0, 1, 0]),
        (2, [0, 1, 0]),
        (3, [0, 0, 1]),
    ] {
        let mut asked = pages.to_vec();
        asked.insert(place, vec![b'N']);
        let mut job = multiplied(marked('a'));
        let at = job.commands.len() - 2;
        job.commands.splice(at..at + 1, asked);
        let case = wrong::case_of(job.job());
        let out = reference::run(&case.job, &[0xa5; LONGEST]).expect("small enough");
        let held = products::check_of(wrong::called, &case, &out);
        let seen = held.map(|held| ([held.before, held.between, held.behind], held.pages));
        checks.check("N beside pages", out.number == 0 && seen == Ok((due, 3)));
    }
}

/// How many products remain at each cell, without a limit.
fn remain(table: &Table, candidates: &[Candidate]) -> Vec<usize> {
    Engine::with(Mistake::Nothing).counts(table, candidates)
}

/// The tables with counted products have as many at their last factor.
fn counts(checks: &mut Checks) {
    for (plan, count) in counted() {
        let (table, terms) = plan.made();
        let terms = of_terms(&terms);
        checks.check("up to 64 candidates", terms.len() <= 64);
        if count <= 3_000 {
            let counts = remain(&table, &terms);
            checks.check("products by factors", counts.last() == Some(&count));
        }
        let answered = matches!(reference::products(&table, &terms), Products::All(_));
        checks.check("answered by factors", answered == (count <= MOST_PRODUCTS));
    }
}

/// Whether N is answered, and that the last cell is never the reason of 17.
fn orders(checks: &mut Checks) {
    for (name, plan, due) in by_orders() {
        let (table, terms) = plan.made();
        let terms = of_terms(&terms);
        let seen = matches!(reference::products(&table, &terms), Products::All(_));
        checks.check(name, seen == due);
        let counts = remain(&table, &terms);
        let few_at_last = counts.last().is_some_and(|&last| last <= MOST_PRODUCTS);
        checks.check(&format!("few at the last cell: {name}"), few_at_last);
        let most = counts.iter().max().copied().unwrap_or(0);
        checks.check(&format!("peak: {name}"), (most <= MOST_PRODUCTS) == due);
    }
}

/// 1,024 and 1,025 products over buffers at their border, and 12, 17 and 14 at once.
fn limits(checks: &mut Checks, rng: &mut Rng) {
    let mut refuses = |name: &str, plan: &Plan, room: usize, number: u64, written: usize| {
        let job = plan.job(rng, vec![vec![b'N']]).job();
        // N and E are the last two bytes; E is refused where N has been answered.
        let offset = job.len() - if written > 0 { 1 } else { 2 };
        checks.refuses(name, &job, room, (number, offset, written));
    };
    let most = Plan::of_factors(8, &[2; 10]);
    refuses("1,024 sets, a byte short", &most, 8_194, 14, 0);
    refuses("1,024 sets and no room for E", &most, 8_195, 14, 8_195);
    let mut more = most.clone();
    more.everywhere();
    refuses("1,025 products", &more, LONGEST, 17, 0);
    refuses("17 before 14", &more, 0, 17, 0);
    let mut unheld = Plan::of_factors(8, &[2; 11]);
    refuses("2,048 products", &unheld, LONGEST, 17, 0);
    unheld.unheld.push((255, 7));
    refuses("12 before 17", &unheld, 0, 12, 0);
    let mut fewer = Plan::of_factors(8, &[5, 5, 41]);
    (0..3).for_each(|number| fewer.kill(number));
    refuses("1,025 products, one at the end", &fewer, LONGEST, 17, 0);

    let job = most.job(rng, vec![vec![b'N']]).job();
    let out = reference::run(&job, &[0xa5; 8_196]).expect("small enough");
    let head = out.buffer[..3] == [0x6e, 0, 4] && out.buffer[8_195] == 0x65;
    let all = (out.number, out.offset, out.written) == (0, job.len(), 8_196);
    checks.check("1,024 sets", head && all);
    // Candidates 0 and 1 are the first pair, and so on: one bit of each two.
    let sets = sets(&out.buffer[..8_195]);
    let low = 0x5_5555;
    let right = |set: &u64| (set ^ (set >> 1)) & low == low && *set < 1 << 20;
    let rising = sets.windows(2).all(|two| two[0] < two[1]);
    checks.check("sets of 1,024", rising && sets.iter().all(right));
}

/// The quicker way against the definition, on any lists of sets.
fn two_ways(checks: &mut Checks, rng: &mut Rng) {
    for turn in 0..300 {
        let bits = rng.between(1, 12);
        let set = |rng: &mut Rng| rng.below(1 << bits) as u64;
        let products: Vec<u64> = (0..rng.between(1, 40)).map(|_| set(rng)).collect();
        let mut numbers: Vec<u64> = (0..16).map(|i| 1 << (i * (1 + turn % 4))).collect();
        rng.shuffle(&mut numbers);
        let holders = &numbers[..rng.between(1, 16)];
        let by_pairs = next_by_pairs(&products, holders);
        checks.check(
            "keeping two ways",
            by_pairs == next_by_size(&products, holders),
        );
    }
    // As many as may remain, and two more.
    for (count, due) in [(512, true), (513, false)] {
        // Ten bits and their complement: none contains another.
        let set = |i: u64| (i << 10 | !i & 0x3ff) << 1;
        let products: Vec<u64> = (0..count).map(set).collect();
        let holders = [1, 1 << 40];
        let [first, second] = [next_by_pairs, next_by_size].map(|way| way(&products, &holders));
        checks.check(
            "1,024 remain two ways",
            first == second && first.is_some() == due,
        );
    }
}

/// Over drawn tables the products are the irredundant covers, found in another way.
fn drawn(checks: &mut Checks, rng: &mut Rng) {
    for _ in 0..300 {
        let (n, m) = (rng.between(1, 4), rng.between(1, 4));
        let table = random_table(rng, n, m);
        let terms = terms_for(rng, &table, 12);
        let candidates = if rng.chance(1, 2) {
            mixed(rng, &table, &terms)
        } else {
            of_terms(&terms)
        };
        let due = match reference::irredundant_covers(&table, &candidates) {
            Covers::None => Products::None,
            Covers::All(covers) => Products::All(covers),
            Covers::TooMany => continue,
        };
        let right = reference::products(&table, &candidates) == due;
        checks.check("products are the covers", right);
    }
    let mut seen = [0; 2];
    for _ in 0..40 {
        let (table, terms) = drawn_plan(rng).widened(rng);
        let terms = of_terms(&terms);
        let counts = remain(&table, &terms);
        let due = counts.iter().all(|&count| count <= MOST_PRODUCTS);
        let answered = matches!(reference::products(&table, &terms), Products::All(_));
        checks.check("drawn plans", answered == due);
        seen[usize::from(due)] += 1;
    }
    checks.check("drawn plans of both kinds", seen[0] > 0 && seen[1] > 0);
}
