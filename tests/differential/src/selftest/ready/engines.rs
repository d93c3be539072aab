//! Engines that read K10 wrongly, made of the reference: they get another job, or their outcome is
//! changed. The ways to read an F are in `readings.rs`.

use super::readings::{sizes, Reading};
use crate::charged::{charge_set, Way, WRONG_BLOCKS};
use crate::format;
use crate::generate::ready;
use crate::reference::{
    self, Asked, Block, Candidate, Outcome, Query, Table, LONGEST, MOST_CANDIDATES,
};
use crate::selftest::prices::engines::{commands, right, with_cheapest, with_number, Engine};
use crate::walk;

/// The bytes of an F.
pub const WIDTH: usize = 36;

/// The job with each whole F read in this way.
pub fn read_so(job: &[u8], reading: Reading) -> Vec<u8> {
    let mut changed = job.to_vec();
    for (at, command) in commands(job).iter().filter(|(_, c)| c[0] == b'F') {
        let block = reading(sizes(job), Block::of(&command[1..]));
        changed[*at..at + WIDTH].copy_from_slice(&ready(&block));
    }
    changed
}

/// An outcome that is due is not worked out again.
pub fn with_job(job: &[u8], changed: Vec<u8>, longer: usize) -> Option<Outcome> {
    if changed == job {
        return None;
    }
    let mut out = reference::run(&changed, &[0xa5; LONGEST])?;
    out.offset += longer;
    Some(out)
}

/// None where the outcome is the due one.
pub type Wrong = Box<dyn Fn(&[u8]) -> Option<Outcome>>;

fn always(engine: Engine) -> Wrong {
    Box::new(move |job| Some(engine(job)))
}

/// Those that give another outcome at an F or another command.
pub fn at_commands() -> Vec<(String, Wrong)> {
    let mut list: Vec<(String, Wrong)> = vec![
        ("10 is not tried".into(), Box::new(off_taken)),
        ("11 is not tried".into(), Box::new(full_taken)),
        ("blocks do not count for 11".into(), Box::new(not_counted)),
        ("10 before 18".into(), Box::new(off_first)),
        ("11 before 18".into(), Box::new(|job| full_first(job, 18))),
        ("11 before 10".into(), Box::new(|job| full_first(job, 10))),
        ("18 before 5".into(), Box::new(|job| bad_first(job, 5))),
        ("18 before 4".into(), Box::new(|job| bad_first(job, 4))),
        ("5 before 4".into(), Box::new(cut_first)),
        ("equal blocks once".into(), Box::new(equal_once)),
        (
            "a block that has gone keeps its number".into(),
            Box::new(unmoved),
        ),
        (
            "D does not take out a block".into(),
            Box::new(not_taken_out),
        ),
        ("12 by terms alone".into(), Box::new(by_terms)),
    ];
    for (name, number) in [("9 for 18", 9), ("10 for 18", 10), ("3 at F", 3)] {
        let engine = move |job: &[u8]| with_number(job, 18, |out| out.number = number);
        list.push((name.into(), always(Box::new(engine))));
    }
    let behind = |job: &[u8]| with_number(job, 18, |out| out.offset += WIDTH);
    list.push(("18 at what follows".into(), always(Box::new(behind))));
    for byte in *b"LCN" {
        let name = format!("blocks are left out of {}", char::from(byte));
        list.push((name, Box::new(move |job| left_out(job, byte))));
    }
    list
}

/// Those that tell another cheapest.
pub fn at_cheapest() -> Vec<(String, Engine)> {
    let mut list: Vec<(String, Engine)> = Vec::new();
    for (name, way) in WRONG_BLOCKS {
        let told = move |asked: &Asked, query: &Query, covers: &[u64]| {
            let p = asked.prices;
            let operands = [p.term, p.literal, p.connection];
            let way = Way::of_blocks(way);
            let cost = |set| charge_set(way, operands, &query.candidates, set);
            let told = covers.iter().map(|&set| (cost(set), set)).min();
            told.expect("C was answered")
        };
        list.push((name.into(), Box::new(move |job| with_cheapest(job, told))));
    }
    list
}

/// The outcome where it has this number at an F.
fn refused_f(job: &[u8], number: u64) -> Option<Outcome> {
    let out = right(job);
    let at_f = job.get(out.offset) == Some(&b'F');
    (out.number == number && at_f).then_some(out)
}

/// The block at an offset.
fn block_at(job: &[u8], at: usize) -> Block {
    Block::of(&job[at + 1..at + WIDTH])
}

/// The job without the bytes from here on.
pub fn without(job: &[u8], at: usize, width: usize) -> Vec<u8> {
    [&job[..at], &job[at + width..]].concat()
}

/// A block with an off cell stands, and holds no wanted one.
fn off_taken(job: &[u8]) -> Option<Outcome> {
    let out = refused_f(job, 10)?;
    let block = Block::new(1, [], block_at(job, out.offset).weight);
    let mut changed = job.to_vec();
    changed[out.offset..out.offset + WIDTH].copy_from_slice(&ready(&block));
    with_job(job, changed, 0)
}

fn full_taken(job: &[u8]) -> Option<Outcome> {
    let out = refused_f(job, 11)?;
    with_job(job, without(job, out.offset, WIDTH), WIDTH)
}

fn not_counted(job: &[u8]) -> Option<Outcome> {
    let out = right(job);
    let first = commands(job).into_iter().find(|(_, c)| c[0] == b'F');
    let (at, _) = first.filter(|(at, _)| out.number == 11 && *at < out.offset)?;
    with_job(job, without(job, at, WIDTH), WIDTH)
}

/// What stands before the offset of an outcome, by the reference.
fn standing(job: &[u8], out: &Outcome) -> (Option<Table>, usize) {
    let left = reference::left_by(&job[..out.offset], &[0; LONGEST]);
    let (_, problem) = left.expect("small enough");
    (problem.table, problem.candidates.len())
}

fn off_first(job: &[u8]) -> Option<Outcome> {
    let mut out = refused_f(job, 18)?;
    let block = Candidate::Block(block_at(job, out.offset));
    let (table, _) = standing(job, &out);
    out.number = 10;
    table.filter(|t| block.holds_off_cell(t)).map(|_| out)
}

fn full_first(job: &[u8], number: u64) -> Option<Outcome> {
    let mut out = refused_f(job, number)?;
    let (_, count) = standing(job, &out);
    out.number = 11;
    (count == MOST_CANDIDATES).then_some(out)
}

/// 18 by the operand bytes that are there, for outputs and weight alone.
fn bad_first(job: &[u8], number: u64) -> Option<Outcome> {
    let mut out = refused_f(job, number)?;
    let ops = &job[out.offset + 1..];
    let weight = ops.get(33..35).map_or(0, format::number);
    out.number = 18;
    (ops.first() == Some(&0) || weight > 850).then_some(out)
}

fn cut_first(job: &[u8]) -> Option<Outcome> {
    let mut out = refused_f(job, 4)?;
    out.number = 5;
    (job.len() < out.offset + WIDTH).then_some(out)
}

/// A block that is equal to an earlier one holds nothing.
fn equal_once(job: &[u8]) -> Option<Outcome> {
    let mut changed = job.to_vec();
    let mut came: Vec<&[u8]> = Vec::new();
    for (at, command) in commands(job).into_iter().filter(|(_, c)| c[0] == b'F') {
        if came.contains(&command) {
            changed[at + 2..at + 34].fill(0);
        }
        came.push(command);
    }
    with_job(job, changed, 0)
}

/// The first D of a block, where nothing was asked before: its offset, the block's, and its number.
fn first_gone(job: &[u8]) -> Option<(usize, usize)> {
    let mut standing: Vec<Option<usize>> = Vec::new();
    for (at, command) in commands(job) {
        match command[0] {
            b'T' | b'A' => standing.push(None),
            b'F' => standing.push(Some(at)),
            b'D' => {
                let gone = *standing.get(usize::from(command[1]))?;
                return gone.map(|block| (at, block));
            }
            b'L' | b'C' | b'N' | b'P' => return None,
            _ => {}
        }
    }
    None
}

/// The block holds nothing any more, and the others stay where they are.
fn unmoved(job: &[u8]) -> Option<Outcome> {
    let (at, block) = first_gone(job)?;
    let mut changed = job.to_vec();
    changed[block + 2..block + 34].fill(0);
    with_job(job, without(&changed, at, 2), 2)
}

fn not_taken_out(job: &[u8]) -> Option<Outcome> {
    let (at, _) = first_gone(job)?;
    with_job(job, without(job, at, 2), 2)
}

/// The job as it comes out where blocks hold nothing.
fn with_nothing(job: &[u8]) -> Option<Outcome> {
    let nothing: Reading = |_, b| Block::new(b.outputs, [], b.weight);
    let due = right(job);
    // One that is refused at an F is not asked.
    let at_f = job.get(due.offset) == Some(&b'F');
    with_job(job, read_so(job, nothing), 0).filter(|_| !at_f)
}

/// Cells that blocks alone hold are held by none.
fn by_terms(job: &[u8]) -> Option<Outcome> {
    with_nothing(job).filter(|out| out.number == 12)
}

/// The answers to one kind of query are those without the blocks.
fn left_out(job: &[u8], byte: u8) -> Option<Outcome> {
    let (due, other) = (right(job), with_nothing(job)?);
    if due.number != 0 || other.number != 0 {
        return None;
    }
    let (mut own, mut others) = (&due.buffer[..due.written], &other.buffer[..other.written]);
    let mut told = Vec::new();
    for (_, command) in commands(job) {
        let next = |from: &mut &[u8]| {
            let (answer, rest) = from.split_at(walk::width(command[0], from).expect("whole"));
            *from = rest;
            answer.to_vec()
        };
        let (answer, without) = (next(&mut own), next(&mut others));
        told.extend(if command[0] == byte { without } else { answer });
    }
    let mut out = due.clone();
    out.written = told.len();
    told.resize(LONGEST, 0xa5);
    out.buffer = told;
    Some(out)
}
