//! A refused command leaves the record as it found it.

use super::leaves;
use crate::generate::{block, come, draft, go, row, term};
use crate::selftest::{both_wanted, bytes, odd_parity, terms, Checks};

pub fn run(checks: &mut Checks) {
    rows(checks);
    queries(checks);
    candidates(checks);
}

/// None of the rows of a refused B stands.
fn rows(checks: &mut Checks) {
    let mut leaves = |name, job: Vec<Vec<u8>>, parts: &[&str]| {
        leaves(checks, name, &job.concat(), parts);
    };
    let sizes = || bytes("49 03 01");
    let mut last_bad = [[1, 0]; 8];
    last_bad[7] = [1, 1];
    let head = "number 8 offset 3 written 0\nplace 1\ninputs 3 outputs 1\nprices 1 1 0\n";
    leaves(
        "B, last row bad",
        vec![sizes(), block(0, last_bad)],
        &[head],
    );
    let taken = vec![sizes(), row(7, 1, 0), block(0, [[0, 1]; 8])];
    let head = "number 7 offset 7 written 0\nplace 3\ninputs 3 outputs 1\nprices 1 1 0\n";
    leaves(
        "B, last vertex taken",
        taken,
        &[head, "row 7 on 01 dc 00\n"],
    );
    let twice = vec![sizes(), row(2, 0, 1), row(2, 1, 0)];
    leaves("R twice", twice, &[head, "row 2 on 00 dc 01\n"]);
}

/// A refused L, C or P leaves the place and the candidates.
fn queries(checks: &mut Checks) {
    let rows = "inputs 1 outputs 1\nprices 1 1 0\nrow 0 on 01 dc 00\nrow 1 on 01 dc 00\n";
    let half = "candidate 0 care 01 value 01 outputs 01 weight 1 low 1 high 1\n";
    for (name, query) in [
        ("L", bytes("4c 00 00 00 00 00 00 00 00 06")),
        ("C", vec![b'C']),
    ] {
        let job = draft(1, 1, [both_wanted(), vec![query.clone()]]).job();
        let head = "number 12 offset 11 written 0\nplace 3\n";
        leaves(checks, name, &job, &[head, rows]);
        let one = vec![term(1, 1, 1), query];
        let job = draft(1, 1, [both_wanted(), one]).job();
        let head = "number 12 offset 15 written 0\nplace 4\n";
        leaves(checks, &format!("T and {name}"), &job, &[head, rows, half]);
    }
    // Odd parity of 8 inputs has 128 primes, which is too many.
    let head = "number 11 offset 515 written 0\nplace 3\ninputs 8 outputs 1\nprices 1 1 0\n";
    let mut text = head.to_string();
    for v in (0..256u32).filter(|v| v.count_ones() % 2 == 1) {
        text.push_str(&format!("row {v} on 01 dc 00\n"));
    }
    leaves(checks, "P of too many", &odd_parity(8).job(), &[&text]);
}

/// T, A and D that are refused leave the candidates.
fn candidates(checks: &mut Checks) {
    let mut refused = |name, last: Vec<u8>, number| {
        let commands = vec![row(1, 1, 0), come(1, 1, 1), last];
        let job = draft(1, 1, [commands]).job();
        let head = format!("number {number} offset 11 written 0\nplace 4\n");
        let sizes = "inputs 1 outputs 1\nprices 1 1 0\n";
        let stands =
            "row 1 on 01 dc 00\ncandidate 0 care 01 value 01 outputs 01 weight 1 low 1 high 1\n";
        leaves(checks, name, &job, &[&head, sizes, stands]);
    };
    refused("A of an off cell", come(0, 0, 1), 10);
    refused("T of an off cell", term(0, 0, 1), 10);
    refused("A of no outputs", come(1, 1, 0), 9);
    refused("D of the count", go(1), 15);
    refused("R behind A", row(0, 0, 1), 4);
    refused("P behind A", vec![b'P'], 4);
    refused("no command", vec![0], 3);

    // 64 stand, with three literals each.
    let full = terms(&[[7, 5, 1]; 64]);
    let job = draft(3, 1, [vec![row(5, 0, 1)], full, vec![come(7, 5, 1)]]).job();
    let head = "number 11 offset 263 written 0\nplace 4\ninputs 3 outputs 1\nprices 1 1 0\n";
    let mut text = head.to_string();
    text.push_str("row 5 on 00 dc 01\n");
    for i in 0..64 {
        let line = format!("candidate {i} care 07 value 05 outputs 01 weight 4 low 4 high 4\n");
        text.push_str(&line);
    }
    leaves(checks, "a 65th", &job, &[&text]);
}
