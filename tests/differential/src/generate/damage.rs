//! Damaged jobs: commands moved, doubled, dropped or spoilt, vertices taken before their row, blocks
//! and ranges spoilt in one operand, bytes changed, put in or cut off.

use super::bytes::{full, likely_byte, likely_bytes};
use super::draft::{case, plain_case, row, Draft};
use super::sound::sound;
use super::tables::{sizes, MOST_TERMS};
use super::Case;
use crate::format::{find, Command, Operand, Part, BLOCK, COMMANDS};
use crate::reference::Block;
use crate::rng::Rng;

/// Bytes for an operand: mostly in range, so that the later refusals are reached too.
fn wild_operand(rng: &mut Rng, operand: Operand, (n, m): (usize, usize)) -> Vec<u8> {
    let mut masked = |width: usize| {
        vec![if rng.chance(1, 6) {
            likely_byte(rng)
        } else {
            rng.byte() & full(width)
        }]
    };
    match operand {
        Operand::Size => vec![rng.pick(&[0, 1, 2, 3, 8, 9, 255])],
        Operand::Inputs => masked(n),
        Operand::Outputs => masked(m),
        Operand::Candidate if rng.chance(3, 4) => vec![rng.below(MOST_TERMS) as u8],
        Operand::Candidate => likely_bytes(rng, 1),
        Operand::Price if rng.chance(1, 4) => vec![rng.pick(&[51, 52, 101, 128, 178, 255])],
        Operand::Price => vec![rng.below(51) as u8],
        Operand::Vertices => wild_vertices(rng, n),
        Operand::Weight => wild_weight(rng).to_le_bytes().to_vec(),
        Operand::Number(bytes) => likely_bytes(rng, bytes),
    }
}

/// Mostly few vertices, as each may have an off cell; now and then one of 2^n or more.
fn wild_vertices(rng: &mut Rng, n: usize) -> Vec<u8> {
    let end = 1 << n;
    let mut vertices: Vec<usize> = (0..rng.below(4)).map(|_| rng.below(end)).collect();
    match rng.below(8) {
        0 => vertices.push(rng.below(256)),
        1 => vertices.push(rng.pick(&[end, 255]).min(255)),
        2 => vertices.extend(0..end),
        _ => {}
    }
    Block::new(0, vertices, 0).vertices.to_vec()
}

fn wild_weight(rng: &mut Rng) -> u16 {
    match rng.below(5) {
        0 => rng.pick(&[850, 851, 852, 0x0352, 0x0401, 0x5203, 0x8000, 0xffff]),
        1 => rng.next() as u16,
        _ => rng.below(851) as u16,
    }
}

/// The command with nearly any operands. Most of many stay 0: one row of eight would nearly always
/// be bad.
fn with_wild_operands(rng: &mut Rng, draft: &Draft, command: &Command) -> Vec<u8> {
    let mut bytes = vec![command.byte];
    let many = command.operands.len() > BLOCK;
    for &operand in command.operands {
        if many && rng.chance(3, 4) {
            bytes.extend(vec![0; operand.bytes()]);
        } else {
            bytes.extend(wild_operand(rng, operand, draft.sizes()));
        }
    }
    bytes
}

/// The same command with one operand changed, if it has any.
fn with_one_wild_operand(rng: &mut Rng, draft: &Draft, bytes: &[u8]) -> Vec<u8> {
    let command = find(bytes[0]).expect("it has a part");
    let spoilt = rng.below(command.operands.len().max(1));
    let mut changed = vec![command.byte];
    for (i, &operand) in command.operands.iter().enumerate() {
        let at = changed.len();
        if i == spoilt {
            changed.extend(wild_operand(rng, operand, draft.sizes()));
        } else {
            changed.extend(&bytes[at..at + operand.bytes()]);
        }
    }
    changed
}

fn wild_command(rng: &mut Rng, draft: &Draft) -> Vec<u8> {
    let command = &COMMANDS[rng.below(COMMANDS.len())];
    with_wild_operands(rng, draft, command)
}

/// Replaces the operands of one command of this part, all or one, if there is such a command.
fn spoil(rng: &mut Rng, draft: &mut Draft, part: Part) {
    let places = draft.places(part);
    if !places.is_empty() {
        let place = rng.pick(&places);
        let bytes = &draft.commands[place];
        draft.commands[place] = if rng.chance(1, 2) {
            with_one_wild_operand(rng, draft, bytes)
        } else {
            with_wild_operands(rng, draft, find(bytes[0]).expect("it has a part"))
        };
    }
}

/// A row for a vertex of an R or B comes before it: within a B any of the eight is met.
fn take_vertex(rng: &mut Rng, draft: &mut Draft) {
    let mut places = draft.places(Part::Rows);
    if rng.chance(3, 4) {
        places.retain(|&place| draft.commands[place][0] == b'B');
    }
    if !places.is_empty() {
        let place = rng.pick(&places);
        let command = &draft.commands[place];
        let rows = (command.len() - 2) / 2;
        let vertex = command[1].wrapping_add(rng.below(rows) as u8);
        draft.commands.insert(place, row(vertex, 0, 0));
    }
}

/// W is spoilt, doubled, moved behind another command, or put before all.
fn damage_settings(rng: &mut Rng, draft: &mut Draft) {
    let places = draft.places(Part::Settings);
    let Some(&place) = places.first() else {
        return;
    };
    let count = draft.commands.len();
    match rng.below(5) {
        0 | 1 => spoil(rng, draft, Part::Settings),
        2 => {
            let wild = with_wild_operands(rng, draft, find(b'W').expect("a command"));
            draft.commands.insert(rng.between(place, count), wild);
        }
        3 => {
            let command = draft.commands.remove(place);
            draft.commands.insert(rng.below(count), command);
        }
        _ => draft.commands.swap(0, place),
    }
}

/// An F is spoilt in one operand: no output, one of m or above, a vertex more, a weight above 850.
fn damage_block(rng: &mut Rng, draft: &mut Draft) {
    let mut places = draft.places(Part::Candidates);
    places.retain(|&place| draft.commands[place][0] == b'F');
    if places.is_empty() {
        return;
    }
    let (n, m) = draft.sizes();
    let place = rng.pick(&places);
    let ops = &mut draft.commands[place][1..];
    match rng.below(6) {
        0 => ops[0] = 0,
        1 => ops[0] |= rng.pick(&[full(8) & !full(m), 0x80]),
        // Each vertex may have an off cell.
        2 | 3 => {
            let v = rng.below(1 << n);
            ops[1 + v / 8] |= 1 << (v % 8);
        }
        4 => ops[1..33].copy_from_slice(&wild_vertices(rng, n)),
        _ => ops[33..].copy_from_slice(&wild_weight(rng).to_le_bytes()),
    }
}

/// A G is spoilt: another number, both ends exchanged, one above 850, or any operand.
fn damage_range(rng: &mut Rng, draft: &mut Draft) {
    let places = draft.places(Part::Ranges);
    if places.is_empty() {
        return;
    }
    let place = rng.pick(&places);
    let ops = &mut draft.commands[place][1..];
    match rng.below(6) {
        0 => ops[0] = ops[0].wrapping_add(1 + rng.below(MOST_TERMS) as u8),
        1 => ops[1..].rotate_left(2),
        2 => ops[1..].reverse(),
        3 => ops[3..].copy_from_slice(&wild_weight(rng).to_le_bytes()),
        4 => ops[1..3].copy_from_slice(&wild_weight(rng).to_le_bytes()),
        _ => spoil(rng, draft, Part::Ranges),
    }
}

/// One change in the list of commands.
fn damage_commands(rng: &mut Rng, draft: &mut Draft) {
    let count = draft.commands.len();
    if count == 0 {
        return;
    }
    let place = rng.below(count);
    match rng.below(15) {
        0 => {
            draft.commands.remove(place);
        }
        1 => {
            let command = draft.commands.remove(place);
            draft.commands.insert(rng.below(count), command);
        }
        2 => draft.commands.swap(place, rng.below(count)),
        3 => {
            let command = draft.commands[place].clone();
            draft.commands.insert(rng.below(count + 1), command);
        }
        4 => {
            let command = wild_command(rng, draft);
            draft.commands.insert(rng.below(count + 1), command);
        }
        5 => spoil(rng, draft, Part::Rows),
        6 => spoil(rng, draft, Part::Candidates),
        7 => spoil(rng, draft, Part::Other),
        8 => take_vertex(rng, draft),
        9 => damage_settings(rng, draft),
        10 | 11 => damage_block(rng, draft),
        12 | 13 => damage_range(rng, draft),
        _ => rng.shuffle(&mut draft.commands),
    }
}

/// One change in the bytes.
fn damage_bytes(rng: &mut Rng, job: &mut Vec<u8>) {
    let place = rng.below(job.len() + 1);
    match rng.below(6) {
        0 => job.insert(place, rng.byte()),
        1 => job.insert(place, likely_byte(rng)),
        2 if place < job.len() => {
            job.remove(place);
        }
        3 if place < job.len() => job[place] = likely_byte(rng),
        4 if place < job.len() => job[place] ^= 1 << rng.below(8),
        _ => job.push(likely_byte(rng)),
    }
}

pub fn damaged(rng: &mut Rng) -> Case {
    let mut draft = sound(rng);
    for _ in 0..rng.below(3) {
        damage_commands(rng, &mut draft);
    }
    let mut job = draft.job();
    for _ in 0..rng.below(3) {
        damage_bytes(rng, &mut job);
    }
    let behind = likely_bytes(rng, 12);
    let length = if rng.chance(1, 4) {
        rng.below(job.len() + 1)
    } else {
        job.len()
    };
    let cut = job.split_off(length);
    case(rng, job, [cut, behind].concat())
}

/// Commands in nearly any order with nearly any operands.
pub fn wild(rng: &mut Rng) -> Case {
    let (n, m) = sizes(rng);
    let mut draft = Draft {
        commands: vec![vec![b'I', n as u8, m as u8]],
    };
    for _ in 0..rng.below(10) {
        let command = wild_command(rng, &draft);
        draft.commands.push(command);
    }
    if rng.chance(1, 2) {
        draft.commands.push(vec![b'E']);
    }
    plain_case(rng, &draft)
}

pub fn noise(rng: &mut Rng) -> Case {
    let length = rng.below(30);
    let job = likely_bytes(rng, length);
    case(rng, job, Vec::new())
}
