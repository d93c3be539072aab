//! Tables made for the limits of the limited part. What is put in has vertices of its own, so that the
//! covers of the whole are made of one cover of each: those with 32 and 33 members, or with 7 and 8 for
//! an output, are few.

use super::changes::Candidates;
use super::draft::{draft, plain_case, put, row, Draft};
use super::queries::{queries, ranged_queries};
use super::ranges::merged;
use super::ready::{drawn_weight, of_cube};
use super::tables::rows;
use super::Case;
use crate::reference::{
    fits_part, irredundant_covers, possibly_cheapest, run_at, Block, Candidate, Covers, Layer,
    Prices, Table, Term, LONGEST, MOST_CANDIDATES,
};
use crate::rng::Rng;

type Commands = Vec<Vec<u8>>;

const INPUTS: usize = 8;

#[derive(Clone)]
pub struct LimitTable {
    pub table: Table,
    pub candidates: Vec<Candidate>,
    /// The first vertex that nothing has.
    next: usize,
}

/// A term at one vertex.
pub fn at_vertex(v: usize, outputs: u8) -> Term {
    Term {
        care: 255,
        value: v as u8,
        outputs,
    }
}

impl LimitTable {
    pub fn new(m: usize) -> LimitTable {
        LimitTable {
            table: Table::new(INPUTS, m),
            candidates: Vec::new(),
            next: 0,
        }
    }

    /// The next vertex, with such a row.
    pub fn vertex(&mut self, on: u8, dc: u8) -> usize {
        let v = self.next;
        self.table.on[v] = on;
        self.table.dc[v] = dc;
        self.next += 1;
        v
    }

    /// A member of every cover, which has these outputs; some of them are wanted, the others free.
    pub fn needed(&mut self, wanted: u8, outputs: u8) {
        let v = self.vertex(wanted, outputs & !wanted);
        let t = at_vertex(v, outputs);
        self.candidates.push(Candidate::Term(t));
    }

    /// So many of these, each for one output, which take turns.
    pub fn spread(&mut self, count: usize) {
        for i in 0..count {
            let output = 1 << (i % self.table.m);
            self.needed(output, output);
        }
    }

    /// A cell that is held by one of these, each with further outputs, which are free.
    pub fn one_of(&mut self, wanted: u8, further: &[u8]) {
        let all = further.iter().fold(0, |all, outputs| all | outputs);
        let v = self.vertex(wanted, all & !wanted);
        for outputs in further {
            let t = at_vertex(v, wanted | outputs);
            self.candidates.push(Candidate::Term(t));
        }
    }

    /// So many vertices, each held by a piece, and a block that holds all of them and comes behind.
    pub fn pieces(&mut self, count: usize, outputs: u8, weight: u16) {
        let first = self.next;
        for _ in 0..count {
            self.needed(outputs, outputs);
        }
        let block = Block::new(outputs, first..self.next, weight);
        self.candidates.push(Candidate::Block(block));
    }

    /// A vertex at which these outputs are wanted: held by a term for the lowest and one for the rest, or by
    /// one for all, which comes behind.
    pub fn two_or_one(&mut self, outputs: u8) {
        let low = outputs & outputs.wrapping_neg();
        let v = self.vertex(outputs, 0);
        for outputs in [low, outputs & !low, outputs] {
            let t = at_vertex(v, outputs);
            self.candidates.push(Candidate::Term(t));
        }
    }

    /// A vertex that is wanted, with no candidate for it.
    pub fn set(&mut self, v: usize, wanted: u8) {
        self.table.on[v] = wanted;
        self.next = self.next.max(v + 1);
    }

    /// A candidate that is in no cover: what it holds is free.
    pub fn idle(&mut self, outputs: u8) {
        let v = self.vertex(0, outputs);
        let t = at_vertex(v, outputs);
        self.candidates.push(Candidate::Term(t));
    }

    /// The candidate with this number comes once more, behind the others.
    pub fn again(&mut self, number: usize) {
        self.candidates.push(self.candidates[number]);
    }

    /// A block in the place of a term.
    pub fn as_block(&mut self, number: usize, weight: u16) {
        if let Candidate::Term(t) = self.candidates[number] {
            self.candidates[number] = Candidate::Block(of_cube(INPUTS, t, weight));
        }
    }

    pub fn rows(&self) -> Commands {
        let (on, dc) = (&self.table.on, &self.table.dc);
        let with_row = (0..self.next).filter(|&v| on[v] | dc[v] != 0);
        with_row.map(|v| row(v as u8, on[v], dc[v])).collect()
    }

    /// The rows, the candidates by T and F, and what is asked.
    pub fn job(&self, asked: Commands) -> Draft {
        let candidates = self.candidates.iter().map(put).collect();
        draft(
            INPUTS as u8,
            self.table.m as u8,
            [self.rows(), candidates, asked],
        )
    }

    /// Every irredundant cover; few enough by construction.
    pub fn covers(&self) -> Vec<u64> {
        match irredundant_covers(&self.table, &self.candidates) {
            Covers::All(covers) => covers,
            _ => Vec::new(),
        }
    }
}

/// Outputs that have this one, and others now and then.
fn around(rng: &mut Rng, m: usize, output: u8) -> u8 {
    let any = rng.byte() & ((1u16 << m) - 1) as u8;
    output | if rng.chance(1, 3) { any } else { 0 }
}

/// Near 32 members in all, or near 7 for an output.
fn drawn_members(rng: &mut Rng, limited: &mut LimitTable) {
    let m = limited.table.m;
    if m >= 5 && rng.chance(1, 2) {
        limited.spread(rng.between(24, 34));
        return;
    }
    let output = 1 << rng.below(m);
    for _ in 0..rng.between(1, 7) {
        let outputs = around(rng, m, output);
        let wanted = if rng.chance(1, 2) { outputs } else { output };
        limited.needed(wanted, outputs);
    }
    for _ in 0..rng.below(5) {
        let other = 1 << rng.below(m);
        limited.needed(other, around(rng, m, other));
    }
}

/// What leaves a choice: by further outputs, and by the number of members.
fn drawn_choice(rng: &mut Rng, limited: &mut LimitTable) {
    let m = limited.table.m;
    let output = 1 << rng.below(m);
    match rng.below(3) {
        0 => {
            let further: Vec<u8> = (0..rng.between(2, 3))
                .map(|_| around(rng, m, output))
                .collect();
            limited.one_of(output, &further);
        }
        1 => limited.pieces(rng.between(2, 4), output, drawn_weight(rng)),
        _ => {
            // One piece for each output of a vertex, or a term for all of them.
            let outputs = around(rng, m, output);
            let v = limited.vertex(outputs, 0);
            let single = (0..8).filter(|j| outputs >> j & 1 == 1);
            let mut list: Vec<u8> = single.map(|j| 1 << j).collect();
            list.push(outputs);
            list.dedup();
            let terms = list.iter().map(|&o| Candidate::Term(at_vertex(v, o)));
            limited.candidates.extend(terms);
        }
    }
}

pub fn drawn_limits(rng: &mut Rng) -> LimitTable {
    let mut limited = LimitTable::new(rng.between(1, 8));
    // Pieces with the lowest numbers: their block comes one above all of them.
    let first = rng.chance(1, 4);
    if first {
        let output = 1 << rng.below(limited.table.m);
        limited.pieces(rng.between(5, 9), output, drawn_weight(rng));
    }
    drawn_members(rng, &mut limited);
    for _ in 0..rng.between(1, 4) {
        drawn_choice(rng, &mut limited);
    }
    if rng.chance(1, 4) {
        limited.idle(1 << rng.below(limited.table.m));
    }
    if rng.chance(1, 4) {
        limited.again(rng.below(limited.candidates.len()));
    }
    if rng.chance(1, 2) {
        for number in 0..limited.candidates.len() {
            if rng.chance(1, 4) {
                limited.as_block(number, drawn_weight(rng));
            }
        }
    }
    limited.candidates.truncate(MOST_CANDIDATES);
    if !first && rng.chance(2, 3) {
        rng.shuffle(&mut limited.candidates);
    }
    limited
}

/// Pages by the narrower list or by the wide one, with C, N and V between.
fn asked(rng: &mut Rng, table: &Table, candidates: &Candidates) -> Commands {
    let standing = &candidates.standing;
    let covers = match irredundant_covers(table, standing) {
        Covers::TooMany => return Vec::new(),
        Covers::None => Vec::new(),
        Covers::All(covers) => covers,
    };
    let mut list = covers.clone();
    if rng.chance(2, 3) {
        list.retain(|&set| fits_part(standing, set));
    }
    let pages = queries(rng, &list, standing.len());
    if rng.chance(1, 2) {
        return pages;
    }
    let possible = possibly_cheapest(&covers, &candidates.ranges(Prices::USUAL));
    let others = ranged_queries(rng, &possible, standing.len());
    merged(rng, pages, others)
}

/// A drawn job over such a table; in every second one the candidates come and go.
pub fn case(rng: &mut Rng) -> Case {
    let limited = drawn_limits(rng);
    let mut candidates = Candidates::of_list(&limited.table, &limited.candidates);
    let mut commands = rows(rng, &limited.table);
    let rounds = rng.pick(&[1, 1, 2, 3]);
    for round in 0..rounds {
        if round > 0 {
            candidates.change(rng);
        }
        commands.extend(candidates.commands());
        if rng.chance(1, 4) {
            commands.extend(candidates.draw_ranges(rng, Prices::USUAL));
        }
        commands.extend(asked(rng, &limited.table, &candidates));
    }
    let job = draft(INPUTS as u8, limited.table.m as u8, [commands]);
    let mut case = plain_case(rng, &job);
    if rng.chance(1, 3) {
        // Near what the part needs, where its pages are shorter or 20 ends the job.
        let out = run_at(Layer::Part, &case.job, &[0; LONGEST]);
        case.room = out.map_or(0, |out| out.written) + rng.below(4);
    }
    case
}
