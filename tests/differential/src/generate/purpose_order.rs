//! Jobs made on purpose for K9, each with the orders that its T commands are put in: every order of
//! few of them, and of more the reversal, rotations, exchanges, also of equal ones, and drawn ones.
//! Those with up to 64 candidates are in `purpose_order/many.rs`.

mod many;

use super::draft::{come, draft, page, plain_case, prices, put, term, Draft};
use super::order::{self, terms_of, Order};
use super::prices::drawn_prices;
use super::queries::queries;
use super::ready::{any_block, around};
use super::tables::{
    cells_to_hold, grow, random_table, random_term, rows, table_around, terms_for,
};
use super::Case;
use crate::reference::{irredundant_covers, of_terms, Candidate, Covers, Table, Term, LONGEST};
use crate::rng::Rng;
use crate::selftest::{ask_all, marked};

type Commands = Vec<Vec<u8>>;

/// An accepted job without D, and orders of its T commands.
pub struct Ordered {
    pub case: Case,
    pub orders: Vec<Order>,
}

/// Up to this many T commands are put in every order.
const FEW: usize = 4;

pub fn orders_on_purpose(rng: &mut Rng) -> Vec<Ordered> {
    let mut list = Vec::new();
    of_the_paper(rng, &mut list);
    for turn in 0..450 {
        let most = if turn % 3 == 0 { FEW } else { 12 };
        let job = drawn(rng, most);
        add(rng, &mut list, &job);
    }
    of_starts(rng, &mut list);
    many::of_many(rng, &mut list);
    list
}

/// A job with the orders for its T commands, over the longest buffer and, now and then, one that is
/// just long enough.
fn add(rng: &mut Rng, list: &mut Vec<Ordered>, draft: &Draft) {
    let tight = if rng.chance(1, 3) { draft.need() } else { None };
    add_with_room(rng, list, draft, tight.unwrap_or(LONGEST));
}

fn add_with_room(rng: &mut Rng, list: &mut Vec<Ordered>, draft: &Draft, room: usize) {
    let case = Case {
        job: draft.job(),
        behind: vec![b'E'],
        room,
    };
    let orders = orders(rng, &terms_of(&case.job));
    list.push(Ordered { case, orders });
}

fn orders(rng: &mut Rng, terms: &[&[u8]]) -> Vec<Order> {
    let count = terms.len();
    if count <= FEW {
        return order::every(count);
    }
    let mut list = vec![
        order::rotated(count, 0),
        order::rotated(count, 1),
        order::rotated(count, rng.between(2, count - 1)),
        order::reversed(count),
        order::sorted(terms),
        order::exchanged(count, 0, count - 1),
        order::shuffled(rng, count),
    ];
    let equals = order::equals(terms);
    if !equals.is_empty() {
        let (i, j) = rng.pick(&equals);
        list.push(order::exchanged(count, i, j));
    }
    list
}

/// The marked cases with two terms or more, with N too; the example in every order.
fn of_the_paper(rng: &mut Rng, list: &mut Vec<Ordered>) {
    for case in "adg".chars() {
        let mut job = marked(case);
        let end = job.commands.len() - 1;
        job.commands.insert(end, vec![b'N']);
        add(rng, list, &job);
    }
    let case = Case {
        job: marked('a').job(),
        behind: vec![b'E'],
        room: LONGEST,
    };
    let orders = order::every(6);
    list.push(Ordered { case, orders });
}

/// One of these jobs with a drawn buffer, for an order that is drawn too.
pub fn case(rng: &mut Rng) -> Case {
    let draft = drawn(rng, 12);
    plain_case(rng, &draft)
}

/// Some of the terms come by A, before, between and behind the T commands, and further ones between
/// the queries; every third job has blocks among them.
fn drawn(rng: &mut Rng, most: usize) -> Draft {
    let (n, m) = (rng.between(1, 4), rng.between(1, 3));
    let (table, terms) = table_and_terms(rng, n, m, most);
    let mut standing = of_terms(&terms);
    if rng.chance(1, 3) {
        put_in_blocks(rng, &table, &mut standing, most);
    }
    let mut commands = by_each(rng, &standing);
    commands.extend(asked(rng, &table, &standing));
    for _ in 0..rng.below(3) {
        let t = further(rng, &table, &terms);
        standing.push(Candidate::Term(t));
        commands.push(come(t.care, t.value, t.outputs));
        commands.extend(asked(rng, &table, &standing));
    }
    let settings = vec![prices(drawn_prices(rng)); usize::from(rng.chance(2, 3))];
    draft(n as u8, m as u8, [settings, rows(rng, &table), commands])
}

/// Two terms or more that hold each wanted cell, several of them equal as a rule.
fn table_and_terms(rng: &mut Rng, n: usize, m: usize, most: usize) -> (Table, Vec<Term>) {
    let own = rng.between(1, most.div_ceil(2) + 1);
    let terms: Vec<Term> = (0..own).map(|_| random_term(rng, n, m)).collect();
    let mut table = table_around(rng, n, m, &terms);
    let mut list = terms;
    if rng.chance(1, 3) {
        let other = random_table(rng, n, m);
        let terms = terms_for(rng, &other, most - 1);
        let held = !matches!(irredundant_covers(&other, &of_terms(&terms)), Covers::None);
        if held && !terms.is_empty() {
            (table, list) = (other, terms);
        }
    }
    while list.len() < 2 || (list.len() < most && rng.chance(2, 3)) {
        list.push(rng.pick(&list));
    }
    rng.shuffle(&mut list);
    (table, list)
}

/// A block for some of the terms but two, and one more as long as there are few candidates.
fn put_in_blocks(rng: &mut Rng, table: &Table, list: &mut Vec<Candidate>, most: usize) {
    let kept = rng.below(list.len() - 1);
    for (i, candidate) in list.iter_mut().enumerate() {
        if let (false, Candidate::Term(t)) = ((kept..kept + 2).contains(&i), *candidate) {
            if rng.chance(1, 2) {
                *candidate = Candidate::Block(around(rng, table, t));
            }
        }
    }
    if list.len() < most {
        let block = Candidate::Block(any_block(rng, table));
        list.insert(rng.below(list.len() + 1), block);
    }
}

/// Blocks by F, terms by T and, one out of four, by A. Two T commands stand among them.
fn by_each(rng: &mut Rng, list: &[Candidate]) -> Commands {
    let terms = list.iter().filter(|c| c.term().is_some()).count();
    let mut by_term = vec![true; terms];
    for by_term in by_term.iter_mut().skip(2) {
        *by_term = rng.chance(3, 4);
    }
    rng.shuffle(&mut by_term);
    let mut command = |candidate: &Candidate| match candidate {
        Candidate::Term(t) if by_term.pop() == Some(false) => come(t.care, t.value, t.outputs),
        _ => put(candidate),
    };
    list.iter().map(&mut command).collect()
}

/// A copy of a term, or any legal one.
fn further(rng: &mut Rng, table: &Table, terms: &[Term]) -> Term {
    let cells = cells_to_hold(table);
    if cells.is_empty() || rng.chance(1, 2) {
        return rng.pick(terms);
    }
    let (v, j) = rng.pick(&cells);
    grow(rng, table, v, j)
}

/// Pages from 0 on and from other starts, C and N in any order; at least one.
fn asked(rng: &mut Rng, table: &Table, standing: &[Candidate]) -> Commands {
    let Covers::All(covers) = irredundant_covers(table, standing) else {
        unreachable!("few candidates, which hold each wanted cell");
    };
    let mut list = queries(rng, &covers, standing.len());
    list.push(
        rng.pick(&[page(0, 255), page(0, 2), b"C".to_vec(), b"N".to_vec()].each_ref())
            .clone(),
    );
    rng.shuffle(&mut list);
    list
}

/// Vertex 0 is held by the first term alone and vertex 1 by the others: its number decides how many
/// sets stand above a start. The buffers are just long enough for the first order: in others 14 comes
/// at the page, or at C, N or E behind it.
fn of_starts(rng: &mut Rng, list: &mut Vec<Ordered>) {
    let rows = || vec![super::row(0, 1, 0), super::row(1, 1, 0)];
    for others in 1..=5 {
        let terms = || [vec![term(1, 0, 1)], vec![term(1, 1, 1); others]].concat();
        let start = 1 << others;
        for behind in [vec![], ask_all(), vec![b"C".to_vec()], vec![b"N".to_vec()]] {
            for room in 0..3 {
                let asked = [vec![page(start, 9)], behind.clone()].concat();
                let job = draft(1, 1, [rows(), terms(), asked]);
                let need = job.need().expect("few terms");
                add_with_room(rng, list, &job, need + 8 * room);
            }
        }
    }
}
