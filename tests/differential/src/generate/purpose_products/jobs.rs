//! Jobs around N: pages beside it, several in one buffer, candidates that come and go, primes, and
//! drawn tables.

use super::{amid_pages, multiply, Commands, LONGEST_ANSWER};
use crate::generate::bytes::full;
use crate::generate::draft::{come, draft, go, page, prices, row};
use crate::generate::products::{drawn_plan, job_of, Plan};
use crate::generate::purpose::{add, primes};
use crate::generate::tables::{random_table, rows, table_of_terms, terms_for};
use crate::generate::{drawn_prices, Case};
use crate::reference::{of_terms, products, Products, Table, Term, LONGEST, MOST_PRODUCTS};
use crate::rng::Rng;
use crate::selftest::{ask_all, odd_parity};

pub fn of_jobs(rng: &mut Rng, list: &mut Vec<Case>) {
    of_pages(rng, list);
    of_buffers(rng, list);
    of_changes(rng, list);
    of_rings(rng, list);
    of_primes(rng, list);
    of_prices(rng, list);
    of_drawn_plans(rng, list);
    of_drawn_terms(rng, list);
}

/// The whole list in pages of this count, as L has it.
fn pages(table: &Table, terms: &[Term], count: u8) -> Commands {
    let Products::All(sets) = products(table, &of_terms(terms)) else {
        return Vec::new();
    };
    let parts = sets.chunks(count.into());
    let starts = parts.map(|part| part[part.len() - 1].wrapping_add(1));
    let mut list = vec![page(0, count)];
    list.extend(starts.map(|start| page(start, count)));
    // The last one is behind all sets.
    list.pop();
    list
}

/// All pages of lists with 255 to 1,024 sets, with N before, between and behind them.
fn of_pages(rng: &mut Rng, list: &mut Vec<Case>) {
    for (sizes, count) in [
        (&[5, 51][..], 255),
        (&[16, 16], 255),
        (&[16, 16], 100),
        (&[3, 11, 31], 255),
        (&[2; 10], 255),
        (&[32, 32], 205),
    ] {
        let mut plan = Plan::of_factors(2, sizes);
        plan.shuffle(rng);
        let (table, terms) = plan.made();
        let pages = pages(&table, &terms, count);
        for place in [0, 1, pages.len()] {
            let mut asked = pages.clone();
            asked.insert(place, vec![b'N']);
            add(list, &job_of(rng, &table, &terms, asked), LONGEST);
        }
    }
}

/// Three answers of 1,024 sets have room in the longest buffer, a fourth has not; and buffers that
/// end within N's answer, behind a page and before E.
fn of_buffers(rng: &mut Rng, list: &mut Vec<Case>) {
    let plan = Plan::of_factors(1, &[4; 5]);
    for times in [2, 3, 4] {
        let job = plan.job(rng, vec![vec![b'N']; times]);
        for room in [
            LONGEST_ANSWER * times - 1,
            LONGEST_ANSWER * times,
            LONGEST_ANSWER * times + 1,
            LONGEST,
        ] {
            add(list, &job, room.min(LONGEST));
        }
    }
    let job = plan.job(
        rng,
        [vec![page(0, 3)], multiply(), vec![b"C".to_vec()]].concat(),
    );
    let behind = 3 + 8 * 3 + LONGEST_ANSWER;
    for room in [
        26,
        27,
        28,
        behind - 1,
        behind,
        behind + 10,
        behind + 11,
        behind + 12,
    ] {
        add(list, &job, room);
    }
    // Buffers about as long as few sets, many and all.
    let end = [1, 2, 31, 255, 256, MOST_PRODUCTS - 1];
    for room in end
        .into_iter()
        .flat_map(|sets| [2 + 8 * sets, 3 + 8 * sets])
    {
        add(list, &plan.job(rng, multiply()), room);
    }
}

/// Candidates come and go around 1,024 and 1,025 products.
fn of_changes(rng: &mut Rng, list: &mut Vec<Case>) {
    let mut plan = Plan::of_factors(3, &[2; 10]);
    plan.everywhere();
    let (table, terms) = plan.made();
    let again = |number: usize| {
        let t = terms[number];
        come(t.care, t.value, t.outputs)
    };
    let n = || vec![b'N'];
    let everywhere = terms.len() as u8 - 1;
    for changes in [
        // 1,024 without the one that holds every cell, which comes again.
        vec![go(everywhere), n(), again(20), n()],
        vec![go(everywhere), n(), n(), go(0), n(), again(0), n()],
        // 513, then 769 and 1,025 again.
        vec![go(0), n(), again(0), n()],
        vec![
            go(0),
            n(),
            go(19),
            page(0, 255),
            n(),
            again(2),
            n(),
            again(4),
            n(),
        ],
        // An eleventh choice, which is one too many.
        vec![go(everywhere), n(), again(3), n()],
        vec![go(everywhere), again(3), go(20), n(), page(0, 2)],
        // A cell is held no more.
        vec![go(everywhere), n(), go(0), go(0), n()],
        vec![n(), go(everywhere)],
    ] {
        add(list, &job_of(rng, &table, &terms, changes), LONGEST);
    }
}

/// The six vertices of three inputs that are neither 0 nor 7, so many times, each time where a
/// further part of the inputs has an even number of ones: the parts are no neighbours.
fn rings(count: usize) -> Table {
    let mut table = Table::new(8, 1);
    let even = (0..32).filter(|part: &usize| part.count_ones() % 2 == 0);
    for part in even.take(count) {
        (1..7).for_each(|v| table.on[part << 3 | v] = 1);
    }
    table
}

/// A ring has five irredundant covers by its six primes: five rings have too many. Eleven have more
/// than 64 primes.
fn of_rings(rng: &mut Rng, list: &mut Vec<Case>) {
    for count in [1, 2, 3, 4, 5, 10, 11] {
        let table = rings(count);
        let asked = if count <= 4 { amid_pages() } else { multiply() };
        let job = draft(8, 1, [rows(rng, &table), primes(), asked.clone()]);
        add(list, &job, LONGEST);
        let changes = vec![go(0), vec![b'N'], go(0), vec![b'N']];
        let job = draft(8, 1, [rows(rng, &table), primes(), changes]);
        add(list, &job, LONGEST);
    }
}

/// P, then N, over every size; and parities, whose primes are all needed.
fn of_primes(rng: &mut Rng, list: &mut Vec<Case>) {
    for n in 1..=8 {
        for m in [1, 2, 3, 8] {
            let table = random_table(rng, n.min(4), m);
            let parts = [rows(rng, &table), primes(), multiply()];
            add(list, &draft(table.n as u8, m as u8, parts), LONGEST);
        }
        let mut job = odd_parity(n as u8);
        let asked = job.commands.len() - 1 - ask_all().len();
        job.commands.insert(asked, vec![b'N']);
        add(list, &job, LONGEST);
    }
    // All cells are wanted, or all are free.
    for n in [1, 4, 8] {
        for m in [1, 8] {
            let last = full(usize::from(n));
            for (on, dc) in [(full(m), 0), (0, full(m))] {
                let every = (0..=last).map(|v| row(v, on, dc)).collect();
                add(list, &draft(n, m as u8, [every, primes(), multiply()]), 100);
            }
        }
    }
}

/// N over one table at several prices, which leave it as it is.
fn of_prices(rng: &mut Rng, list: &mut Vec<Case>) {
    for sizes in [&[2, 3][..], &[16, 16], &[2; 10], &[5, 5, 41]] {
        let (table, terms) = Plan::of_factors(4, sizes).widened(rng);
        for _ in 0..3 {
            let mut job = job_of(rng, &table, &terms, vec![vec![b'N'], vec![b'C']]);
            job.commands.insert(1, prices(drawn_prices(rng)));
            add(list, &job, LONGEST);
        }
    }
}

/// Drawn plans from few products to many more than 1,024.
fn of_drawn_plans(rng: &mut Rng, list: &mut Vec<Case>) {
    for turn in 0..60 {
        let plan = drawn_plan(rng);
        let (table, terms) = if turn % 2 == 0 {
            plan.made()
        } else {
            plan.widened(rng)
        };
        add(list, &job_of(rng, &table, &terms, multiply()), LONGEST);
    }
}

/// Drawn tables with up to 40 drawn terms: products that contain others come at most cells, and
/// where the terms are many so do more than 1,024.
fn of_drawn_terms(rng: &mut Rng, list: &mut Vec<Case>) {
    for turn in 0..120 {
        let (n, m) = (rng.between(2, 6), rng.between(1, 4));
        let (table, terms) = if turn % 4 == 0 {
            table_of_terms(rng, n, m)
        } else {
            let table = random_table(rng, n.min(4), m);
            let terms = terms_for(rng, &table, 10 + turn / 4);
            (table, terms)
        };
        add(list, &job_of(rng, &table, &terms, multiply()), LONGEST);
    }
}
