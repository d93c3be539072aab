//! Cases made on purpose. They stand at the head of every run, whatever its count.

use super::bytes::full;
use super::draft::{draft, page, row, term, Draft};
use super::purpose_blocks;
use super::purpose_changes;
use super::purpose_cubes;
use super::purpose_prices;
use super::purpose_products;
use super::purpose_ranges;
use super::purpose_ready;
use super::sweeps::{every_byte, every_cut, every_room};
use super::tables::{random_table, rows};
use super::Case;
use crate::format::{find, Command, COMMANDS};
use crate::reference::LONGEST;
use crate::rng::Rng;
use crate::selftest;

const FAR: u64 = u64::MAX;

pub fn on_purpose(rng: &mut Rng) -> Vec<Case> {
    let mut list = Vec::new();
    of_the_paper(rng, &mut list);
    of_sizes(&mut list);
    of_lengths(&mut list);
    of_many_candidates(&mut list);
    of_many_primes(rng, &mut list);
    of_many_sets(&mut list);
    of_places(&mut list);
    purpose_changes::of_changes(rng, &mut list);
    purpose_blocks::of_blocks(rng, &mut list);
    list.extend(purpose_prices::prices_on_purpose(rng));
    list.extend(purpose_cubes::cubes_on_purpose(rng));
    list.extend(purpose_products::products_on_purpose(rng));
    list.extend(purpose_ready::ready_on_purpose(rng));
    list.extend(purpose_ranges::ranges_on_purpose(rng));
    list
}

pub fn add_bytes(list: &mut Vec<Case>, job: Vec<u8>, room: usize) {
    let behind = vec![b'E'];
    list.push(Case { job, behind, room });
}

pub fn add(list: &mut Vec<Case>, draft: &Draft, room: usize) {
    add_bytes(list, draft.job(), room);
}

fn of_the_paper(rng: &mut Rng, list: &mut Vec<Case>) {
    let example = selftest::bytes(selftest::EXAMPLE);
    list.extend(every_cut(&example, LONGEST));
    list.extend(every_room(&example));
    list.extend(every_byte(rng, &example));
    for case in "acdefgh".chars() {
        list.extend(every_room(&selftest::marked(case).job()));
    }
    for n in 1..=8 {
        add(list, &selftest::odd_parity(n), LONGEST);
    }
}

/// Refusal 6 and its borders.
fn of_sizes(list: &mut Vec<Case>) {
    for n in [0, 1, 2, 7, 8, 9, 16, 255] {
        for m in [0, 1, 2, 7, 8, 9, 16, 255] {
            add(list, &draft(n, m, [primes(), vec![page(0, 2)]]), 20);
        }
    }
}

/// A sound job of just this many bytes: this head, count-0 pages, then C for what is left.
pub fn long_job(n: u8, head: Vec<Vec<u8>>, length: usize) -> Draft {
    let left = length - draft(n, 1, [head.clone()]).job().len();
    let mut asked = vec![page(0, 0); left / 10];
    asked.extend(vec![vec![b'C']; left % 10]);
    draft(n, 1, [head, asked])
}

/// A sound job whose answers are just 32,768 bytes: 2,978 of 11 bytes, 3 of 3, and E's.
fn long_answers() -> Draft {
    let mut asked = vec![vec![b'C']; 2_978];
    asked.extend(vec![page(FAR, 1); 3]);
    draft(1, 1, [vec![row(0, 0, 1)], vec![term(1, 0, 1)], asked])
}

/// Refusal 1 and its borders, and refusal 14 at the last byte of the longest buffer.
fn of_lengths(list: &mut Vec<Case>) {
    for length in [LONGEST - 1, LONGEST, LONGEST + 1, LONGEST + 2] {
        add(list, &long_job(1, vec![], length), LONGEST);
        add(list, &long_job(1, vec![], length), 9_000);
    }
    add(list, &long_job(1, vec![], LONGEST), LONGEST + 1);
    let mut endless = long_job(1, vec![], LONGEST).job();
    for last in [b'C', b'L', 0] {
        endless[LONGEST - 1] = last;
        add_bytes(list, endless.clone(), LONGEST);
    }
    for room in [LONGEST - 1, LONGEST, LONGEST + 1] {
        add(list, &long_answers(), room);
    }
    let mut one_more = long_answers();
    one_more.commands.insert(3, vec![b'C']);
    add(list, &one_more, LONGEST);
    let example = selftest::bytes(selftest::EXAMPLE);
    for room in [0, 1, LONGEST, LONGEST + 1, 65_536, 100_000] {
        add_bytes(list, vec![], room);
        add_bytes(list, example.clone(), room);
    }
    for length in [LONGEST + 1, 65_535, 65_536, 65_591] {
        // 65,591 is the example's 55 bytes and 2^16: a length must not be cut to 16 bits.
        let mut job = example.clone();
        job.resize(length, b'E');
        add_bytes(list, job, 63);
    }
}

pub fn primes() -> Vec<Vec<u8>> {
    vec![vec![b'P']]
}

pub fn minterms(count: u8) -> Vec<Vec<u8>> {
    (0..count).map(|v| term(63, v, 1)).collect()
}

pub fn all_wanted(n: u8, m: usize) -> Vec<Vec<u8>> {
    (0..1u16 << n).map(|v| row(v as u8, full(m), 0)).collect()
}

/// Refusal 11 by a 65th term, what comes before it, and 64 candidates.
fn of_many_candidates(list: &mut Vec<Case>) {
    let asked = || {
        vec![
            page(0, 3),
            page(1 << 63, 2),
            page(FAR, 1),
            page(FAR, 0),
            page(0, 255),
            vec![b'C'],
        ]
    };
    for count in [63, 64, 65, 66] {
        let alike = vec![term(0, 0, 1); count];
        let job = draft(1, 1, [all_wanted(1, 1), alike, asked()]);
        add(list, &job, LONGEST);
    }
    for count in [64, 63] {
        let job = draft(6, 1, [all_wanted(6, 1), minterms(count), asked()]);
        add(list, &job, LONGEST);
    }
    // The 65th term may also be malformed, hold an off cell or lack its last byte.
    for last in [term(2, 0, 1), term(0, 0, 1), vec![b'T', 1, 1]] {
        let mut terms = vec![term(1, 1, 1); 64];
        terms.push(last);
        let mut job = draft(1, 1, [vec![row(1, 1, 0)], terms]);
        job.commands.pop();
        add(list, &job, LONGEST);
    }
}

/// Refusal 11 by primes, and tables of every size with P.
fn of_many_primes(rng: &mut Rng, list: &mut Vec<Case>) {
    for n in 1..=8 {
        for m in [1, 3, 8] {
            let table = random_table(rng, n, m);
            let job = draft(n as u8, m as u8, [rows(rng, &table), primes()]);
            for room in [0, 1, LONGEST] {
                add(list, &job, room);
            }
        }
    }
    let asked = || vec![page(0, 9), vec![b'C']];
    // Vertices of odd parity are no neighbours: each is a prime, so their count can be chosen.
    for count in [63, 64, 65, 66] {
        let odd = (0..=255u8).filter(|v| v.count_ones() % 2 == 1).take(count);
        let rows = odd.map(|v| row(v, 1, 0)).collect();
        add(list, &draft(8, 1, [rows, primes(), asked()]), LONGEST);
    }
    let all_free = (0..=255).map(|v| row(v, 0, 0xff)).collect();
    for rows in [all_wanted(8, 8), all_free] {
        add(list, &draft(8, 8, [rows, primes(), asked()]), LONGEST);
    }
}

/// 256 irredundant covers: pages of the largest count, and the one set left behind them.
fn of_many_sets(list: &mut Vec<Case>) {
    let twice: Vec<Vec<u8>> = (0..16).map(|i| term(7, i / 2, 1)).collect();
    let last = 0xaaaa;
    let asked = vec![
        page(0, 255),
        page(0, 254),
        page(last, 255),
        page(last, 0),
        page(last + 1, 255),
        vec![b'C'],
    ];
    let job = draft(3, 1, [all_wanted(3, 1), twice, asked]);
    for room in [0, 2_042, 2_043, 2_044, 4_000, 4_078, LONGEST] {
        add(list, &job, room);
    }
}

/// The commands with these letters, each with its good operands.
pub fn spelled(letters: &str) -> Vec<u8> {
    let sample = |byte| find(byte).expect("a command").sample();
    letters.bytes().flat_map(sample).collect()
}

/// Every command at every place: all jobs of up to three commands, without I, behind it and
/// behind I and R, where the sample term is legal.
fn of_places(list: &mut Vec<Case>) {
    let longer = |job: &Vec<u8>| {
        let one_more = |command: &Command| [job.clone(), command.sample()].concat();
        COMMANDS.iter().map(one_more).collect::<Vec<_>>()
    };
    let mut jobs = vec![vec![], spelled("I"), spelled("IR")];
    let mut all = jobs.clone();
    for _ in 0..3 {
        jobs = jobs.iter().flat_map(longer).collect();
        all.extend(jobs.clone());
    }
    all.into_iter().for_each(|job| add_bytes(list, job, 64));
}
