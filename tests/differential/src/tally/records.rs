//! What the records have shown: a run fails where one of these never came.

use super::never;
use crate::dump::{Held, Weighed};
use crate::format::{self, LAST_NUMBER};
use crate::reference::Prices;

/// The jobs whose records were compared.
#[derive(Default)]
pub struct Records {
    /// By number, those made on purpose among them. All else is of the drawn ones.
    numbers: [usize; LAST_NUMBER as usize + 1],
    jobs: usize,
    /// Those that a command's refusal ended, and those that ended where a command was due.
    refused: usize,
    ended_early: usize,
    /// Those with weights of three values or more.
    three_weights: usize,
    behind: Behind,
    /// Candidates of weight 1 at the usual prices, by their literals.
    weight_one: [usize; 2],
    priced: Priced,
}

/// Jobs with other prices than the usual ones.
#[derive(Default)]
struct Priced {
    /// Those with candidates, and those of them whose weights are not those of the usual prices.
    jobs: usize,
    other_weights: usize,
    /// Those with a weight of 0, and those where as many literals cost more by the outputs.
    free: usize,
    by_outputs: usize,
    /// Those that end behind W.
    behind_prices: usize,
}

/// Jobs by what came before the record. The commands count that were accepted.
#[derive(Default)]
struct Behind {
    primes: usize,
    /// An A behind P.
    come_behind_primes: usize,
    /// A D that was not of the last candidate, so that others moved down.
    moved: usize,
}

impl Records {
    pub fn add(&mut self, held: &Held) {
        self.numbers[held.outcome.number as usize] += 1;
    }

    pub fn add_drawn(&mut self, job: &[u8], held: &Held) {
        self.jobs += 1;
        self.refused += usize::from(held.outcome.number > 2);
        self.ended_early += usize::from(held.outcome.number == 2);
        let candidates = &held.weights.candidates;
        let mut values: Vec<u64> = candidates.iter().map(|c| c.weight).collect();
        values.sort_unstable();
        values.dedup();
        self.three_weights += usize::from(values.len() >= 3);
        let usual = held.weights.prices == [1, 1, 0];
        let of_one = candidates.iter().filter(|c| usual && c.weight == 1);
        for literals in of_one.filter_map(literals) {
            self.weight_one[literals] += 1;
        }
        if !usual {
            self.priced.add(job, held);
        }
        self.behind.add(job, held);
    }

    pub fn print(&self) {
        self.priced.print();
        println!(
            "{} records of drawn jobs were compared, {} of refused ones and {} of ones that end \
             early; {} with three weights or more, {} behind P, {} of these with A, {} behind a D \
             that moves others; weight 1 came {} times with no literal and {} times with one",
            self.jobs,
            self.refused,
            self.ended_early,
            self.three_weights,
            self.behind.primes,
            self.behind.come_behind_primes,
            self.behind.moved,
            self.weight_one[0],
            self.weight_one[1]
        );
    }

    pub fn complaints(&self) -> Vec<String> {
        let absent = (0..self.numbers.len()).filter(|&number| self.numbers[number] == 0);
        let mut list: Vec<String> = absent
            .map(|number| format!("no record of a job with number {number}"))
            .collect();
        list.extend(self.never_drawn());
        list.extend(self.priced.complaints());
        list
    }

    fn never_drawn(&self) -> Vec<String> {
        never(&[
            (self.refused, "no record of a refused drawn job"),
            (
                self.ended_early,
                "no record of a drawn job that ends where a command is due",
            ),
            (
                self.three_weights,
                "no record of a drawn job has three weights",
            ),
            (self.behind.primes, "no record of a drawn job is behind P"),
            (
                self.behind.come_behind_primes,
                "no record of a drawn job is behind an A after a P",
            ),
            (
                self.behind.moved,
                "no record of a drawn job is behind a D that was not of the last candidate",
            ),
            (
                self.weight_one[0],
                "weight 1 never came with no literal in a drawn job",
            ),
            (
                self.weight_one[1],
                "weight 1 never came with one literal in a drawn job",
            ),
        ])
    }
}

/// The literals of a term, None for a block.
fn literals(weighed: &Weighed) -> Option<usize> {
    let term = weighed.candidate.term();
    term.map(|t| t.care.count_ones() as usize)
}

impl Priced {
    fn add(&mut self, job: &[u8], held: &Held) {
        let candidates = &held.weights.candidates;
        let usual = |c: &Weighed| Prices::USUAL.cost_of(&c.candidate);
        let dearer = |c: &Weighed| {
            let alike = |d: &&Weighed| literals(d).is_some() && literals(d) == literals(c);
            candidates.iter().filter(alike).any(|d| d.weight < c.weight)
        };
        let last = format::cut(&job[..held.outcome.offset]);
        let last = last.and_then(|commands| commands.last().map(|command| command[0]));
        self.jobs += usize::from(!candidates.is_empty());
        self.other_weights += usize::from(candidates.iter().any(|c| c.weight != usual(c)));
        let free = |c: &Weighed| c.weight == 0 && literals(c).is_some();
        self.free += usize::from(candidates.iter().any(free));
        self.by_outputs += usize::from(candidates.iter().any(dearer));
        self.behind_prices += usize::from(last == Some(b'W'));
    }

    fn print(&self) {
        println!(
            "{} records of drawn jobs with other prices have candidates, {} other weights than by \
             the usual ones, {} a weight of 0, {} weights that go by the outputs; {} more end \
             right behind W",
            self.jobs, self.other_weights, self.free, self.by_outputs, self.behind_prices
        );
    }

    fn complaints(&self) -> Vec<String> {
        never(&[
            (self.jobs, "no record has candidates and other prices"),
            (self.other_weights, "no record has weights by other prices"),
            (self.free, "no record has a weight of 0"),
            (self.by_outputs, "no record has weights by connections"),
            (self.behind_prices, "no record ends right behind W"),
        ])
    }
}

impl Behind {
    fn add(&mut self, job: &[u8], held: &Held) {
        let before = &job[..held.outcome.offset];
        let commands = format::cut(before).expect("they were accepted");
        let (mut standing, mut primes, mut come, mut moved) = (0, false, false, false);
        for command in commands {
            match command[0] {
                b'T' | b'A' | b'F' => {
                    come |= primes;
                    standing += 1;
                }
                b'D' => {
                    standing -= 1;
                    moved |= command[1] < standing;
                }
                b'P' => {
                    primes = true;
                    // P's answer is the first of all; its second byte is the count.
                    standing = held.outcome.buffer[1];
                }
                _ => {}
            }
        }
        self.primes += usize::from(primes);
        self.come_behind_primes += usize::from(come);
        self.moved += usize::from(moved);
    }
}
