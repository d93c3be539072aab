//! Other ways to the same table and candidates: the answers behind them must stay, but for the
//! cheapest at other prices.

use super::Problem;
use crate::format::{cut, BLOCK};
use crate::generate::{block, come, go, pairs, prices, put, range, row};
use crate::reference::Candidate;

/// The head, and the first candidate taken out and put in behind the others until each has had its
/// turn: the same stand again, in the same order. A block comes by F, as no P stands before it. Where
/// the head has G commands, one for each candidate comes behind the turns instead.
pub fn turned(problem: &Problem) -> Vec<u8> {
    let again = |candidate: &Candidate| match candidate {
        Candidate::Term(t) => come(t.care, t.value, t.outputs),
        Candidate::Block(_) => put(candidate),
    };
    let turn = |candidate: &Candidate| [go(0), again(candidate)].concat();
    let turns = problem.candidates.iter().flat_map(turn).collect();
    let mut head = cut(&problem.head).expect("a list of whole commands");
    head.retain(|command| command[0] != b'G');
    let ranges = problem.ranges.iter().enumerate();
    let ranges = ranges.filter(|_| problem.ranged);
    let ranges = ranges.flat_map(|(i, &ends)| range(i as u8, ends)).collect();
    [head.concat(), turns, ranges].concat()
}

/// The head with an R for each vertex.
pub fn by_rows(problem: &Problem) -> Vec<u8> {
    let table = &problem.table;
    let by_row = |v: usize| row(v as u8, table.on[v], table.dc[v]);
    with_rows(problem, (0..table.vertices()).flat_map(by_row).collect())
}

/// The head with a B for each eight vertices, where there are as many.
pub fn by_blocks(problem: &Problem) -> Vec<u8> {
    let table = &problem.table;
    if table.vertices() < BLOCK {
        return by_rows(problem);
    }
    let starts = (0..table.vertices()).step_by(BLOCK);
    let rows = starts.flat_map(|v| block(v as u8, pairs(table, v)));
    with_rows(problem, rows.collect())
}

/// The head with these prices, whether it has W or not: the first command is I.
pub fn with_prices(problem: &Problem, list: [u8; 3]) -> Vec<u8> {
    let mut commands = cut(&problem.head).expect("a list of whole commands");
    commands.retain(|command| command[0] != b'W');
    let own = prices(list);
    commands.insert(1, &own);
    commands.concat()
}

fn with_rows(problem: &Problem, rows: Vec<u8>) -> Vec<u8> {
    let sizes = vec![b'I', problem.table.n as u8, problem.table.m as u8];
    let pricing = problem.pricing.clone();
    [sizes, pricing, rows, problem.setting.clone()].concat()
}
