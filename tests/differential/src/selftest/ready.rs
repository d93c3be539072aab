//! F on small tables, worked out by hand from K10; what it meets (`refusals.rs`), the records
//! (`dumps.rs`), and that wrong engines are seen (`wrong.rs`).

mod dumps;
mod engines;
mod places;
mod readings;
mod refusals;
mod wrong;

use super::{
    answer_all, answers, ask_all, both_wanted, bytes, example_rows, priced, rivals, terms, Checks,
    EXAMPLE_ANSWERS, LONGEST, TERMS,
};
use crate::generate::{draft, go, of_cube, ready, row, Draft};
use crate::reference::{Block, Term};
use crate::rng::Rng;

type Commands = Vec<Vec<u8>>;

/// The command by its bytes: outputs, the first bytes of the vertices, and the weight.
fn f(outputs: u8, first: &[u8], weight: u16) -> Vec<u8> {
    let mut command = vec![b'F', outputs];
    command.extend(first);
    command.resize(34, 0);
    command.extend(weight.to_le_bytes());
    command
}

pub fn run(checks: &mut Checks, rng: &mut Rng) {
    written(checks);
    exclusive_or(checks);
    low_bits_first(checks);
    two_outputs(checks);
    alone(checks);
    cubes_of_the_example(checks);
    going(checks);
    heaviest(checks);
    met_rivals(checks);
    refusals::run(checks);
    dumps::run(checks);
    wrong::run(checks, rng);
}

/// F's bytes: vertex v in byte v / 8, bit v % 8, and the low byte of the weight first.
fn written(checks: &mut Checks) {
    let zeros = "00".repeat(28);
    let hex = format!("46 05 81 01 {zeros} 02 80 52 03");
    let block = Block::new(5, [0, 7, 8, 241, 255], 850);
    checks.check("bytes of F", ready(&block) == bytes(&hex));
    checks.check("block of F", Block::of(&bytes(&hex)[1..]) == block);
    let has: Vec<usize> = (0..256).filter(|&v| block.has(v)).collect();
    checks.check("vertices of F", has == [0, 7, 8, 241, 255]);
    let held = [(0, 0), (0, 2), (255, 2)].iter();
    let not = [(0, 1), (1, 0), (254, 2), (255, 3)].iter();
    let right = held.clone().all(|&(v, j)| block.holds(v, j));
    let wrong = not.clone().any(|&(v, j)| block.holds(v, j));
    checks.check("cells of F", right && !wrong);
    let t = Term {
        care: 0x81,
        value: 0x80,
        outputs: 3,
    };
    // Over eight inputs vertices 128, 130, .. 254.
    let cube = of_cube(8, t, 9);
    let mut due = Block::new(3, [], 9);
    due.vertices[16..].fill(0x55);
    checks.check("block of a cube", cube == due);
}

fn xor_rows() -> Commands {
    vec![row(1, 1, 0), row(2, 1, 0)]
}

/// Two inputs; vertices 1 and 2 are wanted and the others off. Two terms of two literals have one
/// each, and the block both.
fn xor(weight: u16) -> Draft {
    let list = [terms(&[[3, 1, 1], [3, 2, 1]]), vec![f(1, &[6], weight)]];
    draft(2, 1, [xor_rows(), list.concat(), ask_all()])
}

/// The same with the block first.
fn block_first(weight: u16) -> Draft {
    let list = [vec![f(1, &[6], weight)], terms(&[[3, 1, 1], [3, 2, 1]])];
    draft(2, 1, [xor_rows(), list.concat(), ask_all()])
}

/// Both terms cost 6 together, at prices 50 of all 400, and at 0 nothing. Among equals the smaller
/// number is the cheapest.
fn exclusive_or(checks: &mut Checks) {
    for (weight, cost, last, first) in [
        (0, 0, 4, 1),
        (5, 5, 4, 1),
        (6, 6, 3, 1),
        (7, 6, 3, 6),
        (850, 6, 3, 6),
    ] {
        let due = answers(&[3, 4], cost, last);
        checks.accepts(&format!("xor of {weight}"), &xor(weight).job(), &due);
        let due = answers(&[1, 6], cost, first);
        let job = block_first(weight).job();
        checks.accepts(&format!("xor of {weight} first"), &job, &due);
    }
    for (list, weight, cost, set) in [
        ([0, 0, 0], 0, 0, 3),
        ([0, 0, 0], 1, 0, 3),
        ([50, 50, 50], 399, 399, 4),
        ([50, 50, 50], 400, 400, 3),
        ([50, 50, 50], 401, 400, 3),
        ([0, 0, 7], 13, 13, 4),
        ([0, 0, 7], 14, 14, 3),
    ] {
        let job = priced(xor(weight), list).job();
        let name = format!("xor of {weight} at {list:?}");
        checks.accepts(&name, &job, &answers(&[3, 4], cost, set));
    }
    let mut n = xor(5);
    n.commands.splice(6..8, [vec![b'N']]);
    let due = bytes("6e 02 00 03 00 00 00 00 00 00 00 04 00 00 00 00 00 00 00 65");
    checks.accepts("N of xor", &n.job(), &due);
}

/// Vertices 0, 9 and 255 of eight inputs, each by a block of its own: 1 + 256 + 850.
fn low_bits_first(checks: &mut Checks) {
    let rows = vec![row(0, 1, 0), row(9, 1, 0), row(255, 1, 0)];
    let mut last = [0; 32];
    last[31] = 0x80;
    let blocks = vec![f(1, &[1], 1), f(1, &[0, 2], 256), f(1, &last, 850)];
    let job = draft(8, 1, [rows.clone(), blocks.clone(), ask_all()]);
    checks.accepts("0, 9 and 255", &job.job(), &answers(&[7], 1_107, 7));
    // Without one of them its vertex is held by none; I, three rows and two blocks are 87 bytes.
    for left_out in 0..3 {
        let mut two = blocks.clone();
        two.remove(left_out);
        let job = draft(8, 1, [rows.clone(), two, ask_all()]);
        checks.refuses("two of three", &job.job(), LONGEST, (12, 87, 0));
    }
}

/// One input; (0, 0), (0, 1) and (1, 0) are wanted. Block 1 alone has (1, 0), so that it stands with 0
/// or with 2.
fn two_outputs(checks: &mut Checks) {
    let rows = vec![row(0, 3, 0), row(1, 1, 2)];
    let blocks = vec![f(3, &[1], 2), f(1, &[3], 3), f(2, &[3], 4)];
    let job = draft(1, 2, [rows, blocks, ask_all()]);
    checks.accepts("two outputs", &job.job(), &answers(&[3, 6], 5, 3));
}

/// Blocks of no vertex are in no cover; of equal ones each is.
fn alone(checks: &mut Checks) {
    let line = |list: Commands| draft(1, 1, [both_wanted(), list, ask_all()]).job();
    let (none, all) = (|weight| f(1, &[], weight), |weight| f(1, &[3], weight));
    let job = line(vec![none(0), all(9), none(0)]);
    checks.accepts("no vertex", &job, &answers(&[2], 9, 2));
    let job = line(vec![all(9), all(9), all(8)]);
    checks.accepts("equal blocks", &job, &answers(&[1, 2, 4], 8, 4));
    let job = line(vec![all(0), all(0)]);
    checks.accepts("blocks for nothing", &job, &answers(&[1, 2], 0, 1));
    let nothing = draft(1, 1, [vec![row(0, 0, 1)], vec![f(1, &[1], 5)], ask_all()]);
    checks.accepts("nothing wanted", &nothing.job(), &answers(&[0], 0, 0));
    let job = line(vec![none(850)]);
    checks.refuses("no vertex alone", &job, LONGEST, (12, 47, 0));
}

/// The example with a block for each of its terms: vertices 0 and 2, 1, 1 and 3, 2 and 3, 2, 0 and 1.
/// With the terms' costs the answers are the same; with others set 41 is not the cheapest.
fn cubes_of_the_example(checks: &mut Checks) {
    let cubes = [5, 2, 10, 12, 4, 3];
    let job = |weights: [u16; 6]| {
        let by_block = |i: usize| f(TERMS[i][2], &[cubes[i]], weights[i]);
        let blocks = (0..6).map(by_block).collect();
        draft(2, 2, [example_rows(), blocks, ask_all()]).job()
    };
    let due = bytes(EXAMPLE_ANSWERS);
    checks.accepts("the example by F", &job([1, 3, 1, 1, 3, 1]), &due);
    // 22 has terms 2, 3 and 5.
    let due = answers(&[11, 22, 26, 41, 52, 56], 7, 22);
    checks.accepts("the example at weights", &job([9, 3, 1, 9, 3, 9]), &due);
}

/// A term, the block of both vertices, a term: each goes, and the others move down. A term alone
/// beside the block is not needed.
fn going(checks: &mut Checks) {
    let list = || {
        let [first, second] = [[3, 1, 1], [3, 2, 1]].map(|t| terms(&[t]).remove(0));
        vec![first, f(1, &[6], 5), second]
    };
    for (number, sets, cost, set) in [(0, [1], 5, 1), (1, [3], 6, 3), (2, [2], 5, 2)] {
        let job = draft(2, 1, [xor_rows(), list(), vec![go(number)], ask_all()]);
        let name = format!("D of {number}");
        checks.accepts(&name, &job.job(), &answers(&sets, cost, set));
        let parts = [xor_rows(), list(), ask_all(), vec![go(number)], ask_all()];
        let before = answer_all(&[2, 5], 5, 2);
        let due = [before, answers(&sets, cost, set)].concat();
        checks.accepts(&name, &draft(2, 1, parts).job(), &due);
    }
}

/// No set costs more: 64 times 850.
fn heaviest(checks: &mut Checks) {
    let wanted = (0..64).map(|v| row(v, 1, 0)).collect();
    let one = |v: usize| ready(&Block::new(1, [v], 850));
    let blocks = (0..64).map(one).collect();
    let job = draft(6, 1, [wanted, blocks, ask_all()]).job();
    let due = answers(&[u64::MAX], 54_400, u64::MAX);
    checks.accepts("64 blocks of 850", &job, &due);
}

/// The rival is met while the candidates are the primes, by P or T; a block is none, even where it
/// holds what a prime holds.
fn met_rivals(checks: &mut Checks) {
    let line = |list: Commands| draft(1, 1, [both_wanted(), list, ask_all()]).job();
    let prime = || terms(&[[0, 0, 1]]).remove(0);
    let none = [None; 2];
    checks.check(
        "rival of a term",
        rivals(&line(vec![prime()])) == [Some(1); 2],
    );
    let block = || f(1, &[3], 1);
    checks.check("rival of a block", rivals(&line(vec![block()])) == none);
    let both = line(vec![prime(), block()]);
    checks.check("rival of both", rivals(&both) == none);
    let gone = line(vec![prime(), block(), go(1)]);
    checks.check("rival without the block", rivals(&gone) == [Some(1); 2]);
}
