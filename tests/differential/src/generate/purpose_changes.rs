//! Cases made on purpose for A and D: their places, their borders and what L and C make of them.

use super::draft::{come, draft, go, page, row, term};
use super::purpose::{add, add_bytes, all_wanted, minterms, primes, spelled};
use super::sweeps::{every_byte, every_cut, every_room};
use super::Case;
use crate::reference::LONGEST;
use crate::rng::Rng;
use crate::selftest::{self, ask_all, example_rows, odd_parity, TERMS};

type Commands = Vec<Vec<u8>>;

pub fn of_changes(rng: &mut Rng, list: &mut Vec<Case>) {
    of_their_places(list);
    of_numbers(list);
    of_full_candidates(list);
    of_bad_terms(list);
    of_copies(list);
    of_example_primes(list);
    of_sweeps(rng, list);
    of_long_jobs(list);
}

/// The longer ones of the places. The row's one wanted cell is held by the sample term.
fn of_their_places(list: &mut Vec<Case>) {
    for jobs in [
        // Before I, and D with nothing standing.
        "AE DE IDE IRDE IADE IRTDDE IRADDE IRPDDE",
        // Anywhere before E, and nowhere behind it.
        "IRAE IRALCE IRPALCE IRLALE IRALACADLCE IRTLDALCE IRAEA IRAEDE",
        // R and P behind an A or T, also when its candidate has gone, and I again.
        "IRARE IRAPE IRADRE IRADPE IRADAPE IRTDRE IRTDPE IRPDRE IRPDPE IRAIE IRADIE",
        // T behind A and D, until P, L or C has come.
        "IRATE IRADTE IRTDTE IRADTLCE IRTATDTLCE IRPATE IRPDTE IRPDATE",
        "IRALTE IRACTE IRALDTE IRACDATE",
        // The wanted cell is held no more, and again.
        "IRADLE IRADCE IRALDLE IRPCDCE IRPLDALE IRALDALE",
    ] {
        for job in jobs.split(' ') {
            for room in [0, 1, 64] {
                add_bytes(list, spelled(job), room);
            }
        }
    }
}

/// D of every number that can be at a border, with none to 64 standing, by T, A and P.
fn of_numbers(list: &mut Vec<Case>) {
    for count in [0, 1, 2, 3, 63, 64] {
        let last = u8::saturating_sub(count, 1);
        let near = [0, 1, count / 2, last, count, count + 1];
        for number in near.into_iter().chain([63, 64, 127, 128, 255]) {
            let changes = || vec![go(number)];
            let by_terms = vec![term(0, 0, 1); count.into()];
            let by_changes = vec![come(0, 0, 1); count.into()];
            for alike in [by_terms, by_changes] {
                let job = draft(1, 1, [all_wanted(1, 1), alike, changes(), far_pages()]);
                add(list, &job, 0);
                add(list, &job, LONGEST);
            }
            // Each row of odd parity is a prime of its own; the one that goes is not missed.
            let odd = (0..128u8).filter(|v| v.count_ones() % 2 == 1);
            let wanted = |i: u8| u8::from(i != number);
            let by_number = (0..count).zip(odd);
            let rows = by_number.map(|(i, v)| row(v, wanted(i), 1 - wanted(i)));
            let job = draft(7, 1, [rows.collect(), primes(), changes(), far_pages()]);
            add(list, &job, LONGEST);
        }
    }
}

/// Pages around the sets of the highest candidates, and the cheapest.
fn far_pages() -> Commands {
    vec![
        page(0, 255),
        page(1 << 62, 1),
        page((1 << 62) + 1, 3),
        page(1 << 63, 0),
        page(u64::MAX, 1),
        vec![b'C'],
    ]
}

/// The 65th candidate by A, behind a D, and 64 different ones of which one comes anew.
fn of_full_candidates(list: &mut Vec<Case>) {
    let (t, a) = (|| term(0, 0, 1), || come(0, 0, 1));
    for changes in [
        vec![a()],
        vec![go(0), a()],
        vec![go(63), a(), a()],
        vec![go(0), t(), a()],
        vec![go(31), a(), t()],
        vec![go(0), go(0), a(), a(), go(64)],
        vec![page(0, 1), go(7), page(0, 1), a(), page(1 << 63, 1), a()],
        vec![page(0, 1), go(7), a(), go(63), go(62), a(), a(), vec![b'C']],
    ] {
        for alike in [vec![t(); 64], vec![a(); 64]] {
            let changes = changes.clone();
            let job = draft(1, 1, [all_wanted(1, 1), alike, changes, far_pages()]);
            add(list, &job, LONGEST);
        }
    }
    for v in [0, 1, 31, 62, 63] {
        let changes = vec![go(v), come(63, v, 1)];
        let job = draft(6, 1, [all_wanted(6, 1), minterms(64), changes, far_pages()]);
        add(list, &job, LONGEST);
    }
    // Odd parity of 7: 64 primes.
    for changes in [
        vec![come(127, 1, 1)],
        vec![go(0)],
        vec![go(0), come(127, 1, 1)],
        vec![go(63), come(127, 1, 1)],
        vec![go(0), come(127, 1, 1), come(127, 1, 1)],
        vec![go(0), term(127, 1, 1)],
    ] {
        let mut job = odd_parity(7);
        let behind_primes = job.commands.len() - 1 - ask_all().len();
        job.commands.splice(behind_primes..behind_primes, changes);
        add(list, &job, LONGEST);
    }
}

/// A meets 5, 9, 10 and 11 as T does, with few and with 64 standing.
fn of_bad_terms(list: &mut Vec<Case>) {
    for standing in [0, 1, 63, 64] {
        for operands in [
            // Sound, off, and malformed in each way; the last two hold an off cell as well.
            vec![1, 1, 1],
            vec![1, 0, 1],
            vec![2, 0, 1],
            vec![1, 2, 1],
            vec![1, 1, 0],
            vec![1, 1, 2],
            vec![0, 1, 1],
            vec![0, 0, 3],
            // Missing bytes.
            vec![],
            vec![0],
            vec![0, 1],
        ] {
            for command in [b'A', b'T'] {
                let last = [vec![command], operands.clone()].concat();
                let terms = vec![term(1, 1, 1); standing];
                let mut job = draft(1, 1, [vec![row(1, 1, 0)], terms, vec![last]]);
                if operands.len() < 3 {
                    job.commands.pop();
                }
                add(list, &job, 1);
            }
        }
    }
    // D without its byte, with nothing standing and with one.
    add_bytes(list, spelled("ID")[..4].to_vec(), 0);
    add_bytes(list, spelled("IRAD")[..12].to_vec(), 0);
}

/// The same candidate twice, and one copy gone.
fn of_copies(list: &mut Vec<Case>) {
    let whole = [0, 0, 1];
    let half = [1, 0, 1];
    let other = [1, 1, 1];
    let by = |command: fn(u8, u8, u8) -> Vec<u8>, t: [u8; 3]| command(t[0], t[1], t[2]);
    for number in 0..4 {
        for first in [term, come] {
            for again in [whole, half] {
                let start = vec![by(first, again), by(term, half), by(first, other)];
                let changes = vec![by(come, again), page(0, 9), vec![b'C'], go(number)];
                let job = draft(1, 1, [all_wanted(1, 1), start, changes, ask_all()]);
                add(list, &job, LONGEST);
            }
        }
    }
}

/// On the example of document 003: each prime goes, is missed, and comes again behind the others.
fn of_example_primes(list: &mut Vec<Case>) {
    for number in 0..6 {
        let t = TERMS[[1, 3, 6, 4, 2, 5][usize::from(number)] - 1];
        let back = || vec![come(t[0], t[1], t[2])];
        let gone = || vec![go(number)];
        let between = || vec![page(0, 2), vec![b'C'], page(20, 2)];
        for changes in [
            [gone(), ask_all()].concat(),
            [gone(), back(), ask_all()].concat(),
            [back(), gone(), ask_all()].concat(),
            [between(), gone(), ask_all()].concat(),
            [between(), gone(), between(), back(), ask_all()].concat(),
            [gone(), back(), between(), vec![go(5)], ask_all()].concat(),
        ] {
            let job = draft(2, 2, [example_rows(), primes(), changes]);
            add(list, &job, LONGEST);
        }
    }
    // All of them go.
    for count in [5, 6, 7] {
        let gone = || vec![go(0); count];
        let job = draft(2, 2, [example_rows(), primes(), gone(), ask_all()]);
        add(list, &job, LONGEST);
        let free = (0..4).map(|v| row(v, 0, 3)).collect();
        let terms = TERMS.iter().map(|t| come(t[0], t[1], t[2])).collect();
        let job = draft(2, 2, [free, terms, ask_all(), gone(), ask_all()]);
        add(list, &job, LONGEST);
    }
}

/// Jobs with A and D at many places, at every length, with every buffer length and byte.
fn of_sweeps(rng: &mut Rng, list: &mut Vec<Case>) {
    for job in [
        selftest::seventh_term(),
        selftest::first_term_gone(),
        selftest::prime_gone(),
    ] {
        let job = job.job();
        list.extend(every_cut(&job, LONGEST));
        list.extend(every_room(&job));
        list.extend(every_byte(rng, &job));
    }
}

/// Jobs of the longest length and above, of A and D in turns, and answers to the last byte of a
/// buffer, from C behind each pair.
fn of_long_jobs(list: &mut Vec<Case>) {
    let rows = [row(0, 0, 1), row(1, 1, 0)].concat();
    let head = [vec![b'I', 1, 1], rows, come(0, 0, 1)].concat();
    let pair = [come(0, 0, 1), go(0)].concat();
    for length in [LONGEST, LONGEST + 6] {
        let pairs = (length - head.len() - 1) / pair.len();
        let job = [head.clone(), pair.repeat(pairs), come(0, 0, 1), vec![b'E']].concat();
        add_bytes(list, job, 1);
    }
    let times = LONGEST / 11;
    let asked = [pair, vec![b'C']].concat().repeat(times);
    for room in [times * 11, times * 11 + 1] {
        let job = [head.clone(), asked.clone(), vec![b'E']].concat();
        add_bytes(list, job, room);
    }
}
