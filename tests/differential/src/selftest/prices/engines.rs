//! Engines that read K6 wrongly, made of the reference: they get another job, or their outcome is
//! changed.

use crate::charged::{charge_set, Way, WRONG};
use crate::format;
use crate::reference::{self, Asked, Covers, Outcome, Query, HIGHEST, LONGEST};
use crate::walk;

/// What an engine makes of a job over the longest buffer.
pub type Engine = Box<dyn Fn(&[u8]) -> Outcome>;

pub fn right(job: &[u8]) -> Outcome {
    reference::run(job, &[0xa5; LONGEST]).expect("small enough")
}

/// The whole commands at the head of a job, each with its offset.
pub fn commands(job: &[u8]) -> Vec<(usize, &[u8])> {
    let mut list = Vec::new();
    let mut at = 0;
    while let Some(command) = job.get(at).and_then(|&byte| format::find(byte)) {
        let Some(whole) = job.get(at..at + 1 + command.width()) else {
            break;
        };
        list.push((at, whole));
        at += whole.len();
    }
    list
}

/// Those whose outcome of a job is another one than due at a W.
pub fn at_prices() -> Vec<(&'static str, Engine)> {
    vec![
        ("51 is taken", Box::new(|job| right(&lowered(job, 51..=51)))),
        (
            "128 is taken",
            Box::new(|job| right(&lowered(job, 128..=255))),
        ),
        (
            "the first price is not tried",
            Box::new(|job| right(&untried(job, 0))),
        ),
        (
            "the second price is not tried",
            Box::new(|job| right(&untried(job, 1))),
        ),
        (
            "the third price is not tried",
            Box::new(|job| right(&untried(job, 2))),
        ),
        ("50 is refused", Box::new(fifty_refused)),
        ("W is taken twice", Box::new(taken_twice)),
        (
            "6 for 16",
            Box::new(|job| with_number(job, 16, |out| out.number = 6)),
        ),
        (
            "16 at what follows",
            Box::new(|job| with_number(job, 16, |out| out.offset += 4)),
        ),
        ("16 before 5", Box::new(|job| bad_price_first(job, 5))),
        ("16 before 4", Box::new(|job| bad_price_first(job, 4))),
        ("5 before 4", Box::new(cut_first)),
    ]
}

/// W is taken right behind one of these commands.
pub fn taken_behind() -> Vec<(String, Engine)> {
    let engine = |byte: u8| -> (String, Engine) {
        let name = format!("W is taken behind {}", char::from(byte));
        (name, Box::new(move |job| right(&moved(job, byte))))
    };
    b"RBTAPLCN".iter().map(|&byte| engine(byte)).collect()
}

/// Those that tell another cheapest.
pub fn at_cheapest() -> Vec<(String, Engine)> {
    let mut list: Vec<(String, Engine)> = Vec::new();
    for (name, way) in WRONG {
        let way = Way::of_terms(way);
        let told = move |asked: &Asked, query: &Query, covers: &[u64]| {
            let p = asked.prices;
            let list = [p.term, p.literal, p.connection];
            let cost = |set| charge_set(way, list, &query.candidates, set);
            let told = covers.iter().map(|&set| (cost(set), set)).min();
            told.expect("C was answered")
        };
        list.push((name.into(), Box::new(move |job| with_cheapest(job, told))));
    }
    for byte in *b"PTAD" {
        let usual = move |job: &[u8]| match format::cut(job) {
            Some(whole) if whole.iter().any(|command| command[0] == byte) => without(job),
            _ => right(job),
        };
        let name = format!("usual prices behind {}", char::from(byte));
        list.push((name, Box::new(usual)));
    }
    list.push(("the last among equals".into(), Box::new(last_among_equals)));
    list.push(("all that is free".into(), Box::new(all_that_is_free)));
    list
}

/// The job with its prices of this range lowered to the highest.
fn lowered(job: &[u8], range: std::ops::RangeInclusive<u8>) -> Vec<u8> {
    with_operands(job, |_, price| {
        if range.contains(&price) {
            HIGHEST
        } else {
            price
        }
    })
}

fn untried(job: &[u8], place: usize) -> Vec<u8> {
    with_operands(job, |i, price| {
        if i == place {
            price.min(HIGHEST)
        } else {
            price
        }
    })
}

fn with_operands(job: &[u8], change: impl Fn(usize, u8) -> u8) -> Vec<u8> {
    let mut changed = job.to_vec();
    for (at, _) in commands(job).iter().filter(|(_, c)| c[0] == b'W') {
        for i in 0..3 {
            changed[at + 1 + i] = change(i, job[at + 1 + i]);
        }
    }
    changed
}

fn fifty_refused(job: &[u8]) -> Outcome {
    right(&with_operands(job, |_, price| {
        if price == HIGHEST {
            price + 1
        } else {
            price
        }
    }))
}

/// The second W counts.
fn taken_twice(job: &[u8]) -> Outcome {
    let list = commands(job);
    let first = list
        .windows(2)
        .find(|two| two.iter().all(|(_, c)| c[0] == b'W'));
    let Some(&[(at, first), _]) = first else {
        return right(job);
    };
    let mut out = right(&[&job[..at], &job[at + first.len()..]].concat());
    out.offset += first.len();
    out
}

/// The job with a W behind such a command moved to where it may stand.
fn moved(job: &[u8], byte: u8) -> Vec<u8> {
    let list = commands(job);
    let behind = |two: &&[(usize, &[u8])]| two[0].1[0] == byte && two[1].1[0] == b'W';
    match (list.first(), list.windows(2).find(behind)) {
        (Some((0, [b'I', ..])), Some(&[_, (at, prices)])) => {
            let rest = &job[at + prices.len()..];
            [&job[..3], prices, &job[3..at], rest].concat()
        }
        _ => job.to_vec(),
    }
}

pub fn with_number(job: &[u8], number: u64, change: impl Fn(&mut Outcome)) -> Outcome {
    let mut out = right(job);
    if out.number == number {
        change(&mut out);
    }
    out
}

/// 16 by the operand bytes that are there.
fn bad_price_first(job: &[u8], number: u64) -> Outcome {
    with_number(job, number, |out| {
        if let [b'W', prices @ ..] = &job[out.offset..] {
            if prices.iter().take(3).any(|&price| price > HIGHEST) {
                out.number = 16;
            }
        }
    })
}

fn cut_first(job: &[u8]) -> Outcome {
    with_number(job, 4, |out| {
        if job[out.offset] == b'W' && job.len() < out.offset + 4 {
            out.number = 5;
        }
    })
}

/// The job as it comes out without its W.
pub fn without(job: &[u8]) -> Outcome {
    if right(job).offset < 7 || job[3] != b'W' {
        return right(job);
    }
    let mut out = right(&[&job[..3], &job[7..]].concat());
    out.offset += 4;
    out
}

/// An accepted job with another cost and set in each answer to C.
pub fn with_cheapest(job: &[u8], told: impl Fn(&Asked, &Query, &[u64]) -> (u64, u64)) -> Outcome {
    let mut out = right(job);
    let Some(asked) = reference::asked(job).filter(|_| out.number == 0) else {
        return out;
    };
    let cheapest = asked.queries.iter().filter(|query| query.command == b"C");
    for (at, query) in places(job, &out).into_iter().zip(cheapest) {
        let covers = reference::irredundant_covers(&asked.table, &query.candidates);
        let Covers::All(covers) = covers else {
            continue;
        };
        let (cost, set) = told(&asked, query, &covers);
        out.buffer[at + 1..at + 3].copy_from_slice(&(cost as u16).to_le_bytes());
        out.buffer[at + 3..at + 11].copy_from_slice(&set.to_le_bytes());
    }
    out
}

/// Where the answers to C stand.
fn places(job: &[u8], out: &Outcome) -> Vec<usize> {
    let mut at = 0;
    let mut list = Vec::new();
    for (_, command) in commands(job) {
        if command[0] == b'C' {
            list.push(at);
        }
        at += walk::width(command[0], &out.buffer[at..]).expect("a whole answer");
    }
    list
}

fn last_among_equals(job: &[u8]) -> Outcome {
    with_cheapest(job, |asked, query, covers| {
        let cost = |set| reference::cost(asked.prices, &query.candidates, set);
        let by_cost = covers.iter().map(|&set| (cost(set), !set));
        let (cost, not_set) = by_cost.min().expect("C was answered");
        (cost, !not_set)
    })
}

/// Where the cheapest costs nothing, everything that costs nothing is put in.
fn all_that_is_free(job: &[u8]) -> Outcome {
    with_cheapest(job, |asked, query, covers| {
        let least = reference::cheapest(asked.prices, &query.candidates, covers);
        let costs = query.candidates.iter().map(|c| asked.prices.cost_of(c));
        let free = costs.enumerate().filter(|(_, cost)| *cost == 0);
        match least {
            (0, _) => (0, free.map(|(i, _)| 1 << i).sum()),
            _ => least,
        }
    })
}
