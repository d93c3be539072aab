//! The record that a job leaves, as the text in which it is dumped. By K5 the weight stands beside
//! each candidate; here it is worked out anew from term and prices, so that none can be left
//! behind. A block has its own. Behind the weight stand the ends of the range by K11.

use super::candidate::Candidate;
use super::job::{left_by, Outcome, Problem, LONGEST};
use super::ranges::Range;
use crate::report::hex;

/// The outcome of a job over the longest buffer, and the text of the record that its last command
/// left; None when it is more work than the reference takes on.
pub fn record(job: &[u8]) -> Option<(Outcome, String)> {
    let (out, problem) = left_by(job, &[0; LONGEST])?;
    let sizes = problem.table.as_ref().map_or((0, 0), |t| (t.n, t.m));
    let prices = problem.prices();
    let mut lines = vec![
        format!(
            "number {} offset {} written {}",
            out.number, out.offset, out.written
        ),
        format!("place {}", place(&problem)),
        format!("inputs {} outputs {}", sizes.0, sizes.1),
        format!(
            "prices {} {} {}",
            prices.term, prices.literal, prices.connection
        ),
    ];
    lines.extend(rows(&problem));
    lines.extend(candidates(&problem));
    let text = lines.iter().map(|line| format!("{line}\n")).collect();
    Some((out, text))
}

/// The furthest that came: I, W, a row, a term or block, or a P, L, C, N, G or V.
fn place(problem: &Problem) -> usize {
    let came = [
        problem.table.is_some(),
        problem.prices_set.is_some(),
        problem.has_row.contains(&true),
        problem.terms_came,
        problem.primes_came || problem.queries_came,
    ];
    came.iter().rposition(|&came| came).map_or(0, |i| i + 1)
}

/// By rising vertex, those with neither bit among them.
fn rows(problem: &Problem) -> Vec<String> {
    let line = |v: usize| {
        let table = problem.table.as_ref().expect("I comes before a row");
        format!("row {v} on {:02x} dc {:02x}", table.on[v], table.dc[v])
    };
    let vertices = (0..256).filter(|&v| problem.has_row[v]);
    vertices.map(line).collect()
}

fn candidates(problem: &Problem) -> Vec<String> {
    let mut lines = Vec::new();
    for (i, candidate) in problem.candidates.iter().enumerate() {
        let weight = problem.prices().cost_of(candidate);
        let what = described(candidate);
        let Range { low, high } = problem.ranges[i];
        lines.push(format!(
            "candidate {i} {what} weight {weight} low {low} high {high}"
        ));
    }
    lines
}

/// The three bytes of a term; of a block its outputs and the bytes of its vertices, as they came.
fn described(candidate: &Candidate) -> String {
    match candidate {
        Candidate::Term(t) => format!(
            "care {:02x} value {:02x} outputs {:02x}",
            t.care, t.value, t.outputs
        ),
        Candidate::Block(b) => {
            format!(
                "block outputs {:02x} vertices {}",
                b.outputs,
                hex(&b.vertices)
            )
        }
    }
}
