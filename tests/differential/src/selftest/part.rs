//! The part on small tables, worked out by hand from K12; what it meets at L (`refusals.rs`), and that
//! wrong parts are seen (`wrong.rs`).

mod engines;
mod mistakes;
mod refusals;
mod wrong;

use super::{bytes, marked, odd_parity, priced, Checks, EXAMPLE};
use crate::generate::{come, draft, go, page, range, ranged_page, ready, row, term, Draft};
use crate::reference::{self, Block, Layer, Range, LONGEST, MOST_FOR_OUTPUT, MOST_MEMBERS};
use crate::rng::Rng;

type Commands = Vec<Vec<u8>>;

pub fn run(checks: &mut Checks, rng: &mut Rng) {
    limits(checks);
    as_the_engine(checks);
    eight_vertices(checks);
    others(checks);
    outputs(checks);
    members(checks);
    blocks(checks);
    changes(checks);
    refusals::run(checks);
    wrong::run(checks, rng);
}

/// A page by its answer.
fn listed(sets: &[u64], more: u8) -> Vec<u8> {
    let mut answer = vec![0x6c, sets.len() as u8, more];
    sets.iter().for_each(|set| answer.extend(set.to_le_bytes()));
    answer
}

fn limits(checks: &mut Checks) {
    let right = (MOST_MEMBERS, MOST_FOR_OUTPUT) == (32, 7);
    checks.check("limits of the part", right);
}

/// The covers of the paper's cases have up to three members: all fit.
fn as_the_engine(checks: &mut Checks) {
    let mut jobs = vec![bytes(EXAMPLE)];
    jobs.extend("acdefgh".chars().map(|case| marked(case).job()));
    jobs.extend((1..=3).map(|n| odd_parity(n).job()));
    for job in jobs {
        let buffer = [0xa5; LONGEST];
        let at_part = reference::run_at(Layer::Part, &job, &buffer);
        let same = at_part == reference::run(&job, &buffer);
        checks.check("a case at the part", same);
    }
    // From four inputs on eight primes and more are needed. I, the rows and P stand before L.
    for (n, odd) in [(4, 8), (5, 16), (6, 32), (7, 64)] {
        let at = 3 + 4 * odd + 1;
        let parity = odd_parity(n).job();
        let met = (20, at, 2 + 3 * odd);
        checks.refuses_at(Layer::Part, "a parity at the part", &parity, LONGEST, met);
    }
}

/// Three inputs, all vertices wanted: a term for each, and one for the last two. The covers are 255,
/// which has eight members for its output, and 319, which has seven.
fn eight(behind: Commands) -> Draft {
    let rows = (0..8).map(|v| row(v, 1, 0)).collect();
    let single = (0..8).map(|v| term(7, v, 1)).collect();
    draft(3, 1, [rows, single, vec![term(6, 6, 1)], behind])
}

fn eight_vertices(checks: &mut Checks) {
    for (start, count, sets, more) in [
        (0, 9, vec![319], 0),
        (0, 1, vec![319], 0),
        (0, 0, vec![], 1),
        (255, 1, vec![319], 0),
        (256, 1, vec![319], 0),
        (319, 1, vec![319], 0),
        (319, 0, vec![], 1),
        // It stands below: not refused.
        (320, 1, vec![], 0),
        (320, 0, vec![], 0),
        (u64::MAX, 255, vec![], 0),
    ] {
        let name = format!("eight vertices at the part from {start} on, {count}");
        let job = eight(vec![page(start, count)]).job();
        let due = [listed(&sets, more), vec![0x65]].concat();
        checks.accepts_at(Layer::Part, &name, &job, &due);
    }
    let job = eight(vec![page(0, 9)]).job();
    let due = [listed(&[255, 319], 0), vec![0x65]].concat();
    checks.accepts("eight vertices at the engine", &job, &due);
}

/// C, N and V know of no limits, before L and behind it.
fn others(checks: &mut Checks) {
    let asked = vec![b"C".to_vec(), b"N".to_vec(), ranged_page(0, 9)];
    // With all for nothing both covers are of least cost.
    let mut wide = bytes("63 00 00 ff 00 00 00 00 00 00 00 6e 02 00");
    wide.extend(bytes("ff 00 00 00 00 00 00 00 3f 01 00 00 00 00 00 00"));
    let mut possible = listed(&[255, 319], 0);
    possible[0] = 0x76;
    wide.extend(possible);
    let narrow = listed(&[319], 0);
    let job = eight([asked.clone(), vec![page(0, 9)], asked].concat());
    let due = [wide.clone(), narrow, wide.clone(), vec![0x65]].concat();
    checks.accepts_at(
        Layer::Part,
        "C, N and V at the part",
        &priced(job, [0; 3]).job(),
        &due,
    );
    // Where none fits they are answered as well: the term for two has gone.
    let asked = vec![go(8), b"C".to_vec(), b"N".to_vec(), ranged_page(0, 9)];
    let one = [
        bytes("63 20 00 ff 00 00 00 00 00 00 00 6e 01 00"),
        bytes("ff 00 00 00 00 00 00 00 76 01 00"),
        bytes("ff 00 00 00 00 00 00 00"),
    ];
    let job = eight(asked.clone()).job();
    let due = [one.concat(), vec![0x65]].concat();
    checks.accepts_at(Layer::Part, "C, N and V where none fits", &job, &due);
    let job = eight([asked, vec![page(0, 9)]].concat()).job();
    let met = (20, job.len() - 11, one.concat().len());
    checks.refuses_at(Layer::Part, "20 behind C, N and V", &job, LONGEST, met);
}

/// Three inputs and so many outputs: a term at each of so many vertices, with these cells wanted and
/// these outputs; the others are free.
fn at_vertices(m: u8, list: &[(u8, u8)]) -> Vec<u8> {
    let numbered = || (0..).zip(list);
    let rows = numbered().map(|(v, &(on, outputs))| row(v, on, outputs & !on));
    let terms = numbered().map(|(v, &(_, outputs))| term(0x3f, v, outputs));
    draft(6, m, [rows.collect(), terms.collect(), vec![page(0, 1)]]).job()
}

/// Whether the one cover fits, which has all of these.
fn fits(checks: &mut Checks, name: &str, m: u8, list: &[(u8, u8)], due: bool) {
    let job = at_vertices(m, list);
    if due {
        let all = u64::MAX >> (64 - list.len());
        let page = [listed(&[all], 0), vec![0x65]].concat();
        checks.accepts_at(Layer::Part, name, &job, &page);
    } else {
        let met = (20, job.len() - 11, 0);
        checks.refuses_at(Layer::Part, name, &job, LONGEST, met);
    }
}

fn outputs(checks: &mut Checks) {
    for j in 0..8 {
        let own = 1 << j;
        fits(checks, "7 for an output", 8, &[(own, own); 7], true);
        fits(checks, "8 for an output", 8, &[(own, own); 8], false);
        fits(
            checks,
            "7 for the last output",
            j + 1,
            &[(own, own); 7],
            true,
        );
        fits(
            checks,
            "8 for the last output",
            j + 1,
            &[(own, own); 8],
            false,
        );
    }
    // Seven for each of two, alone and together.
    let both = [[(1, 1); 7], [(2, 2); 7]].concat();
    fits(checks, "7 for each of two", 2, &both, true);
    fits(checks, "7 for all", 8, &[(255, 255); 7], true);
    fits(checks, "8 for all", 8, &[(255, 255); 8], false);
    // Four of each and four of both: 8. Three of both: 7.
    let mixed = [vec![(1, 1); 4], vec![(2, 2); 4], vec![(3, 3); 4]].concat();
    fits(checks, "4, 4 and 4 of both", 2, &mixed, false);
    fits(checks, "4, 4 and 3 of both", 2, &mixed[..11], true);
    // The output counts where the cell is free, too.
    let free = [vec![(1, 1); 4], vec![(2, 3); 4]].concat();
    fits(checks, "4 and 4 with a free cell", 2, &free, false);
    fits(checks, "4 and 3 with a free cell", 2, &free[..7], true);
}

/// The outputs take turns, so that none has more than five.
fn members(checks: &mut Checks) {
    let turns: Vec<(u8, u8)> = (0..64).map(|v| (1 << (v % 8), 1 << (v % 8))).collect();
    for (count, due) in [
        (31, true),
        (32, true),
        (33, false),
        (34, false),
        (64, false),
    ] {
        fits(checks, &format!("{count} members"), 8, &turns[..count], due);
    }
    // 56 members, seven for each output.
    fits(checks, "7 for each of eight", 8, &turns[..56], false);
}

/// The last of eight vertices by a block, which is the eighth for the output, or not.
fn blocks(checks: &mut Checks) {
    let with_last = |count: u8, behind: Commands| {
        let rows = (0..count).map(|v| row(v, 1, 0)).collect();
        let single = (0..count - 1).map(|v| term(15, v, 1)).collect();
        let last = ready(&Block::new(1, [usize::from(count) - 1], 0));
        draft(4, 1, [rows, single, vec![last], behind]).job()
    };
    let job = with_last(7, vec![page(0, 9)]);
    let due = [listed(&[127], 0), vec![0x65]].concat();
    checks.accepts_at(Layer::Part, "the block is the seventh", &job, &due);
    let job = with_last(8, vec![page(0, 9)]);
    let met = (20, job.len() - 11, 0);
    checks.refuses_at(Layer::Part, "the block is the eighth", &job, LONGEST, met);
    // A block for all eight comes by itself: 128 is the last of the others, so its set is 256.
    let block = ready(&Block::new(1, 0..8, 850));
    let rows: Commands = (0..8).map(|v| row(v, 1, 0)).collect();
    let single: Commands = (0..8).map(|v| term(7, v, 1)).collect();
    let asked = vec![
        page(0, 9),
        page(255, 1),
        page(256, 1),
        page(257, 1),
        b"C".to_vec(),
    ];
    let job = draft(3, 1, [rows, single, vec![block], asked]).job();
    let one = listed(&[256], 0);
    // C: eight terms of three literals cost 32, the block 850.
    let cheapest = bytes("63 20 00 ff 00 00 00 00 00 00 00 65");
    let due = [&one[..], &one, &one, &listed(&[], 0), &cheapest].concat();
    checks.accepts_at(Layer::Part, "a block for all", &job, &due);
}

/// The term for two vertices goes and comes: 20 goes and comes with it.
fn changes(checks: &mut Checks) {
    let job = eight(vec![go(8), come(6, 6, 1), page(0, 9)]).job();
    let due = [listed(&[319], 0), vec![0x65]].concat();
    checks.accepts_at(Layer::Part, "gone and come again", &job, &due);
    let job = eight(vec![page(0, 9), go(8), page(0, 9)]).job();
    let met = (20, job.len() - 11, 11);
    checks.refuses_at(Layer::Part, "20 behind a page", &job, LONGEST, met);
    // The first goes and what is left moves down: 0 to 6 have vertices 1 to 7, and 7 has 6 and 7. Vertices
    // 0 and 1 come by another one, 8. With 1 to 4 it is always needed: beside 5 and 6, or beside 7.
    let job = eight(vec![go(0), come(6, 0, 1), page(0, 9)]).job();
    let due = [listed(&[382, 414], 0), vec![0x65]].concat();
    checks.accepts_at(Layer::Part, "others moved down", &job, &due);
    // A range is no matter for L.
    let wide = range(0, Range { low: 0, high: 850 });
    let job = eight(vec![wide, page(0, 9)]).job();
    let due = [listed(&[319], 0), vec![0x65]].concat();
    checks.accepts_at(Layer::Part, "L with a range", &job, &due);
}
