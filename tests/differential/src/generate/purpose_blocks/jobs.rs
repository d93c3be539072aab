//! Jobs around B: cut at every length, at every place, with whole tables and of the longest length.

use super::{rows_below, with_row, Commands, ROWS};
use crate::format::BLOCK;
use crate::generate::bytes::full;
use crate::generate::draft::{block, come, draft, go, row, term};
use crate::generate::purpose::{add, add_bytes, long_job, primes, spelled};
use crate::generate::sweeps::{every_byte, every_cut, every_room};
use crate::generate::tables::{pairs, table_of_terms};
use crate::generate::Case;
use crate::reference::{Table, Term, LONGEST};
use crate::rng::Rng;
use crate::selftest::{ask_all, mixed, ring};

pub fn of_jobs(rng: &mut Rng, list: &mut Vec<Case>) {
    of_cuts(list);
    of_their_places(list);
    of_whole_tables(rng, list);
    for job in [ring(), mixed()] {
        list.extend(every_cut(&job, LONGEST));
        list.extend(every_room(&job));
        list.extend(every_byte(rng, &job));
    }
    of_long_jobs(list);
}

/// B at every length, where it would be good, where 7 or 8 waits behind 5, and where 4 comes first.
fn of_cuts(list: &mut Vec<Case>) {
    let (three, one) = (|| vec![b'I', 3, 2], || vec![b'I', 1, 2]);
    let held = || [row(0, 1, 0), term(7, 0, 1)].concat();
    let gone = || [row(0, 1, 0), come(7, 0, 1), go(0)].concat();
    let good = block(0, ROWS);
    let bad = block(0, with_row(ROWS, 0, [1, 1]));
    let far = block(255, ROWS);
    for (head, block) in [
        (three(), &good),
        (three(), &bad),
        (three(), &far),
        (one(), &good),
        (vec![b'I', 8, 8], &far),
        ([three(), row(0, 1, 0)].concat(), &good),
        ([three(), row(7, 1, 0)].concat(), &bad),
        ([three(), good.clone()].concat(), &good),
        (vec![], &good),
        ([three(), held()].concat(), &good),
        ([three(), gone()].concat(), &good),
        ([three(), spelled("P")].concat(), &good),
        ([three(), spelled("L")].concat(), &good),
        ([three(), spelled("C")].concat(), &good),
    ] {
        for case in every_cut(&[head.as_slice(), block, b"E"].concat(), 30) {
            if case.job.len() > head.len() {
                list.push(case);
            }
        }
    }
}

/// The longer ones of the places. The sample B has free rows where no other sample has one.
fn of_their_places(list: &mut Vec<Case>) {
    for jobs in [
        // Before I, and where R may stand.
        "B BE BIE BIBE IBE IBBE IRBE IBRE IRBRE IRBBE IBIE IBPE IRBTE IRBAE",
        // What follows.
        "IRBTLCE IBRTLCE IRBPLCE IBRPLCE IRBALCE IRBADLE IRBTDALCE IRBPDALCE IBLCE IBCLE",
        // Behind T, A, P, L and C, also when the candidate has gone.
        "IRTBE IRABE IRPBE IPBE ILBE ICBE IRTDBE IRADBE IRPDBE IRADADBE IRTLBE IRACBE",
        "IRBTBE IRBABE IRBPBE IRBLBE IRBADBE IRBPLBE IRBTCBE IRPLCBE IRTADDBE",
        // Behind E.
        "IEB IEBE IBEB IBEBE IRBTLCEB",
    ] {
        for job in jobs.split(' ') {
            for room in [0, 1, 64] {
                add_bytes(list, spelled(job), room);
            }
        }
    }
}

/// The table by B where eight vertices are left from `first` on, by R elsewhere.
fn rows_from(table: &Table, first: usize) -> Commands {
    let by_row = |v: usize| row(v as u8, table.on[v], table.dc[v]);
    let whole = (table.vertices() - first) / BLOCK;
    let end = first + whole * BLOCK;
    let starts = (0..whole).map(|i| first + i * BLOCK);
    let mut list: Commands = (0..first).map(by_row).collect();
    list.extend(starts.map(|v| block(v as u8, pairs(table, v))));
    list.extend((end..table.vertices()).map(by_row));
    list
}

/// Every vertex has a row, by B from any vertex on where eight are left, in any order; then one B more.
fn of_whole_tables(rng: &mut Rng, list: &mut Vec<Case>) {
    for n in 3..=8u8 {
        for first in 0..BLOCK {
            let m = rng.between(1, 8);
            let (table, terms) = table_of_terms(rng, n.into(), m);
            let by_term = |t: &Term| term(t.care, t.value, t.outputs);
            let terms: Commands = terms.iter().map(by_term).collect();
            let asked = [terms, ask_all()].concat();
            let mut rows = rows_from(&table, first);
            for _ in 0..3 {
                let job = draft(n, m as u8, [rows.clone(), asked.clone()]);
                add(list, &job, LONGEST);
                let last = block(rng.byte() & full(n.into()), [[0, 0]; BLOCK]);
                rows.push(last);
                add(list, &draft(n, m as u8, [rows.clone()]), 1);
                rows.pop();
                rng.shuffle(&mut rows);
            }
        }
    }
}

/// Jobs with B of up to the longest length, and with R for B: there 14 bytes more are not too long,
/// or are, which B's job does not mind. And jobs of nothing but B.
fn of_long_jobs(list: &mut Vec<Case>) {
    let head = || [vec![block(0, rows_below(1))], primes()].concat();
    for below in [15, 14, 13, 12, 1, 0] {
        let job = long_job(3, head(), LONGEST - below);
        add(list, &job, LONGEST);
        add(list, &job, 9_000);
    }
    add(list, &long_job(3, head(), LONGEST + 1), LONGEST);
    add(list, &long_job(3, head(), LONGEST), LONGEST + 1);
    add(list, &long_job(3, head(), LONGEST - 99), LONGEST + 1);
    for length in [LONGEST, LONGEST + 1] {
        let blocks = block(0, ROWS).repeat(length / 18 + 1);
        for head in [vec![], vec![b'I', 3, 2], vec![b'I', 8, 8]] {
            let mut job = [head, blocks.clone()].concat();
            job.truncate(length);
            add_bytes(list, job, 9);
        }
    }
}
