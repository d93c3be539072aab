//! Tables in which the order of the cells decides: taken in another one, or without those that hold
//! more than a later one, more products would remain at some cell, or fewer.

use super::{amid_pages, multiply};
use crate::generate::products::{job_of, At, Plan};
use crate::generate::purpose::add;
use crate::generate::Case;
use crate::reference::LONGEST;
use crate::rng::Rng;

/// Plans with their names, and whether N is answered. Nowhere remain more than 1,024 products at
/// the last cell.
pub fn by_orders() -> Vec<(&'static str, Plan, bool)> {
    vec![
        ("17 if by output", early_by_vertex(), true),
        ("answered if by output", early_by_output(), false),
        ("17 if by falling vertex", early_vertex(), true),
        ("answered if by falling vertex", late_vertex(), false),
        ("17 if by falling output", early_output(), true),
        ("answered if by falling output", late_output(), false),
        ("a cell without choice in time", between(16), true),
        ("a cell without choice too late", between(32), false),
        ("few at the end", few_at_the_end(), false),
        ("fewer before each peak", peaks(), true),
    ]
}

pub fn of_orders(rng: &mut Rng, list: &mut Vec<Case>) {
    for (_, plan, _) in by_orders() {
        for asked in [multiply(), amid_pages()] {
            add(list, &plan.job(rng, asked.clone()), LONGEST);
            let mut other = plan.clone();
            other.shuffle(rng);
            add(list, &other.job(rng, asked.clone()), LONGEST);
            let (table, terms) = other.widened(rng);
            add(list, &job_of(rng, &table, &terms, asked), LONGEST);
        }
    }
}

fn factors(plan: &mut Plan, places: impl IntoIterator<Item = At>, size: usize) {
    for at in places {
        plan.factor(at, size);
    }
}

/// Two of the five pairs at vertex 0 have no choice behind them; seven pairs stand at vertex 1. By
/// output ten pairs and an eleventh come before that.
fn early_by_vertex() -> Plan {
    let mut plan = Plan::new(1, 8);
    factors(&mut plan, (0..5).map(|j| (0, j)), 2);
    let [first, second, ..] = plan.factors()[..] else {
        unreachable!("five pairs");
    };
    plan.kill_at(first, (0, 6));
    plan.kill_at(second, (0, 7));
    factors(&mut plan, (0..7).map(|j| (1, j)), 2);
    plan
}

/// Eleven pairs at vertices 0 and 1, and at vertex 2 no choice for the first, at its output.
fn early_by_output() -> Plan {
    let mut plan = Plan::new(2, 8);
    let first = plan.factor((0, 0), 2);
    factors(&mut plan, (1..8).map(|j| (0, j)), 2);
    factors(&mut plan, (5..8).map(|j| (1, j)), 2);
    plan.kill_at(first, (2, 0));
    plan
}

/// Of eleven pairs the one at the last vertex has no choice, by the first vertex.
fn early_vertex() -> Plan {
    let mut plan = Plan::new(8, 1);
    let last = plan.factor((128, 0), 2);
    factors(&mut plan, (1..11).map(|v| (v, 0)), 2);
    plan.kill_at(last, (0, 0));
    plan
}

/// The same with the first vertex and the last one exchanged.
fn late_vertex() -> Plan {
    let mut plan = Plan::new(8, 1);
    let first = plan.factor((0, 0), 2);
    factors(&mut plan, (1..11).map(|v| (v, 0)), 2);
    plan.kill_at(first, (128, 0));
    plan
}

/// At one vertex: of six fours that at the last output has no choice, by the first output.
fn early_output() -> Plan {
    let mut plan = Plan::new(1, 8);
    let last = plan.factor((1, 7), 4);
    factors(&mut plan, (1..6).map(|j| (1, j)), 4);
    plan.kill_at(last, (1, 0));
    plan
}

fn late_output() -> Plan {
    let mut plan = Plan::new(1, 8);
    let first = plan.factor((1, 0), 4);
    factors(&mut plan, (1..6).map(|j| (1, j)), 4);
    plan.kill_at(first, (1, 7));
    plan
}

/// Ten pairs, the cell at this vertex that leaves the first no choice, and an eleventh pair at
/// vertex 17.
fn between(vertex: u8) -> Plan {
    let mut plan = Plan::new(8, 1);
    let first = plan.factor((0, 0), 2);
    factors(&mut plan, (1..10).map(|v| (v, 0)), 2);
    plan.kill_at(first, (vertex, 0));
    plan.factor((17, 0), 2);
    plan
}

/// Twelve pairs, and behind them no choice for any: one product is left.
fn few_at_the_end() -> Plan {
    let mut plan = Plan::of_factors(2, &[2; 12]);
    (0..12).for_each(|number| plan.kill(number));
    plan
}

/// Ten pairs, then in turn a cell that leaves one of them no choice and a further pair: 1,024
/// products remain again and again.
fn peaks() -> Plan {
    let mut plan = Plan::new(8, 1);
    factors(&mut plan, (0..10).map(|i| (2 * i + 1, 0)), 2);
    for i in 0..5 {
        let killed = plan.factors()[i];
        let v = killed.at.0 + 64;
        plan.kill_at(killed, (v, 0));
        plan.factor((v + 1, 0), 2);
    }
    plan
}
