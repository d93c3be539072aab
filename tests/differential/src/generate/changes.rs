//! Candidates that come and go: terms by T or A, blocks by F, primes by P, and what A and D make of
//! them, and of their ranges.

use super::draft::{come, go, put};
use super::ranges::drawn_ranges;
use super::ready::any_block;
use super::tables::{cells_to_hold, grow, MOST_TERMS};
use crate::reference::{of_terms, Candidate, Prices, Range, Table, MOST_CANDIDATES};
use crate::rng::Rng;

/// The candidates that stand behind the commands so far.
pub struct Candidates<'a> {
    table: &'a Table,
    pub standing: Vec<Candidate>,
    /// For each of them what G has set, if it came.
    ranges: Vec<Option<Range>>,
    /// What D has taken out.
    gone: Vec<Candidate>,
    /// Whether a T or F may still come.
    open: bool,
    /// Whether blocks come at all.
    blocks: bool,
    commands: Vec<Vec<u8>>,
}

impl<'a> Candidates<'a> {
    fn none(table: &'a Table) -> Candidates<'a> {
        Candidates {
            table,
            standing: Vec::new(),
            ranges: Vec::new(),
            gone: Vec::new(),
            open: true,
            blocks: false,
            commands: Vec::new(),
        }
    }

    /// By T and F alone.
    pub fn of_list(table: &'a Table, list: &[Candidate]) -> Candidates<'a> {
        let mut candidates = Candidates::none(table);
        candidates.commands = list.iter().map(put).collect();
        candidates.standing = list.to_vec();
        candidates.ranges = vec![None; list.len()];
        candidates
    }

    /// By T, A and F, with other changes between.
    pub fn of_changes(rng: &mut Rng, table: &'a Table, list: &[Candidate]) -> Candidates<'a> {
        let mut candidates = Candidates::none(table);
        candidates.blocks = list.iter().any(|c| c.block().is_some());
        for &c in list {
            candidates.put_in(rng, c);
            if rng.chance(1, 8) {
                candidates.one_change(rng);
            }
        }
        candidates.hold_wanted(rng);
        candidates
    }

    /// By P. More primes than allowed do not stand; their job is refused there.
    pub fn of_primes(table: &'a Table) -> Candidates<'a> {
        let mut candidates = Candidates::none(table);
        let primes = table.primes();
        if primes.len() <= MOST_CANDIDATES {
            candidates.standing = of_terms(&primes);
            candidates.ranges = vec![None; primes.len()];
        }
        candidates.open = false;
        candidates.commands.push(vec![b'P']);
        candidates
    }

    /// The commands since this was called last. A query follows them, so that no T or F comes any
    /// more.
    pub fn commands(&mut self) -> Vec<Vec<u8>> {
        self.open = false;
        std::mem::take(&mut self.commands)
    }

    /// The ranges of the standing candidates at these prices.
    pub fn ranges(&self, prices: Prices) -> Vec<Range> {
        let own = |c: &Candidate| Range::at(prices.cost_of(c));
        let both = self.standing.iter().zip(&self.ranges);
        both.map(|(c, set)| set.unwrap_or(own(c))).collect()
    }

    /// G commands for some of the standing candidates.
    pub fn draw_ranges(&mut self, rng: &mut Rng, prices: Prices) -> Vec<Vec<u8>> {
        let weights: Vec<u64> = self.standing.iter().map(|c| prices.cost_of(c)).collect();
        let mut ranges = self.ranges(prices);
        let commands = drawn_ranges(rng, &mut ranges, &weights);
        for command in &commands {
            let number = usize::from(command[1]);
            self.ranges[number] = Some(ranges[number]);
        }
        commands
    }

    /// Some changes. Each wanted cell is held again behind them, as a rule.
    pub fn change(&mut self, rng: &mut Rng) {
        for _ in 0..rng.between(1, 4) {
            self.one_change(rng);
        }
        if rng.chance(11, 12) {
            self.hold_wanted(rng);
        }
    }

    fn one_change(&mut self, rng: &mut Rng) {
        match rng.below(5) {
            0 => {
                self.take_out_any(rng);
            }
            1 => {
                self.put_in_any(rng);
            }
            // Tried and taken back.
            2 => {
                if self.put_in_any(rng) {
                    self.take_out(self.standing.len() - 1);
                }
            }
            // Taken out and put in again, now behind the others.
            3 => {
                if let Some(c) = self.take_out_any(rng) {
                    self.put_in(rng, c);
                }
            }
            // A second copy.
            _ => {
                if !self.standing.is_empty() && self.has_room(rng) {
                    let c = rng.pick(&self.standing);
                    self.put_in(rng, c);
                }
            }
        }
    }

    /// Whether it comes: a block has no command any more where none may stand before it.
    fn put_in(&mut self, rng: &mut Rng, candidate: Candidate) -> bool {
        let command = match candidate {
            Candidate::Block(_) if !self.open => return false,
            Candidate::Term(t) if !self.open || rng.chance(1, 2) => {
                come(t.care, t.value, t.outputs)
            }
            _ => put(&candidate),
        };
        self.commands.push(command);
        self.standing.push(candidate);
        self.ranges.push(None);
        true
    }

    /// Above `MOST_TERMS` the covers soon are too many, so few terms come there.
    fn has_room(&self, rng: &mut Rng) -> bool {
        let most = if rng.chance(1, 8) {
            MOST_CANDIDATES
        } else {
            MOST_TERMS
        };
        self.standing.len() < most
    }

    /// A legal term, if there is one, or block, if it has room.
    fn put_in_any(&mut self, rng: &mut Rng) -> bool {
        if self.blocks && self.open && rng.chance(1, 2) && self.has_room(rng) {
            let block = any_block(rng, self.table);
            return self.put_in(rng, Candidate::Block(block));
        }
        let cells = cells_to_hold(self.table);
        let comes = !cells.is_empty() && self.has_room(rng);
        if comes {
            let (v, j) = rng.pick(&cells);
            self.put_in_grown(rng, v, j);
        }
        comes
    }

    fn put_in_grown(&mut self, rng: &mut Rng, v: usize, j: usize) {
        let t = grow(rng, self.table, v, j);
        self.put_in(rng, Candidate::Term(t));
    }

    fn take_out(&mut self, number: usize) -> Candidate {
        let candidate = self.standing.remove(number);
        self.ranges.remove(number);
        self.commands.push(go(number as u8));
        self.gone.push(candidate);
        candidate
    }

    /// The first, the last or any, if one stands.
    fn take_out_any(&mut self, rng: &mut Rng) -> Option<Candidate> {
        let last = self.standing.len().checked_sub(1)?;
        let any = rng.between(0, last);
        let number = rng.pick(&[0, last, any, any]);
        Some(self.take_out(number))
    }

    /// What has gone comes back where it is missed; for a block that can't a term comes.
    fn hold_wanted(&mut self, rng: &mut Rng) {
        for (v, j) in self.table.wanted_cells() {
            let holds = |c: &&Candidate| c.holds(v, j);
            if self.standing.iter().any(|c| holds(&c)) {
                continue;
            }
            if let Some(&c) = self.gone.iter().find(holds) {
                if !self.put_in(rng, c) {
                    self.put_in_grown(rng, v, j);
                }
            }
        }
    }
}
