//! A part, right or with one mistake. It goes by what the engine's L, which is the reference's, answers in
//! pages; all else is left to the engine. L is in `engines/pages.rs`.

mod pages;

use super::mistakes::Mistake::{self, *};
use crate::format::sets;
use crate::generate::page;
use crate::part::{left, WRONG};
use crate::reference::{self, Candidate, Outcome, Problem, Stop, LONGEST};

struct Part {
    mistake: Mistake,
    problem: Problem,
    /// The standing candidates as they are counted.
    counted: Vec<Candidate>,
    first_list: Option<Vec<u64>>,
}

type Answer = Result<(usize, Vec<u8>), u64>;

/// What a part with this mistake makes of a job over such a buffer.
pub fn run(mistake: Mistake, job: &[u8], before: &[u8]) -> Outcome {
    let mut out = Outcome {
        number: 0,
        offset: 0,
        written: 0,
        buffer: before.to_vec(),
    };
    if job.len() > LONGEST || before.len() > LONGEST {
        out.number = 1;
        return out;
    }
    let mut part = Part {
        mistake,
        problem: Problem::new(),
        counted: Vec::new(),
        first_list: None,
    };
    loop {
        let free = before.len() - out.written;
        match part.step(job, out.offset, free) {
            Err(number) => {
                out.number = number;
                let follows = mistake == AtWhatFollows && number == 20;
                out.offset += if follows { 10 } else { 0 };
                return out;
            }
            Ok((width, answer)) => {
                let end = out.written + answer.len();
                out.buffer[out.written..end].copy_from_slice(&answer);
                out.written = end;
                let ended = job[out.offset] == b'E';
                out.offset += width;
                if ended {
                    return out;
                }
            }
        }
    }
}

fn number_of(stop: Stop) -> u64 {
    match stop {
        Stop::Refused(number) => number,
        Stop::TooMany => unreachable!("the reference had it"),
    }
}

impl Part {
    fn step(&mut self, job: &[u8], at: usize, free: usize) -> Answer {
        let whole = job.get(at..at + 10);
        match (job.get(at), whole) {
            (Some(b'L'), Some(command)) if self.problem.table.is_some() => {
                let asked = self.problem.queries_came;
                let answer = self.page(&command[1..], free)?;
                if self.mistake == LeavesPlace {
                    self.problem.queries_came = asked;
                }
                let short = answer.len() > free;
                (!short).then_some((10, answer)).ok_or(14)
            }
            _ => self.other(job, at, free),
        }
    }

    /// The engine's, but for the mistakes there. What comes and goes is followed.
    fn other(&mut self, job: &[u8], at: usize, free: usize) -> Answer {
        let command = self.problem.command(job, at, free);
        let (width, mut answer) = command.map_err(number_of)?;
        match job[at] {
            b'D' => self.go(usize::from(job[at + 1])),
            b'T' | b'F' | b'A' | b'P' => self.come(job[at]),
            _ => {}
        }
        let refused = match (job[at], self.mistake) {
            (b'C', CheapestRefused) => self.none_fits(),
            (b'V', PossibleRefused) => self.none_fits(),
            (b'N', ProductsRefused) => self.none_fits(),
            (b'P', PrimesRefused) => self.lister(0, 0).is_ok() && self.none_fits(),
            _ => false,
        };
        if refused {
            return Err(20);
        }
        match (job[at], self.mistake) {
            (b'C', Cheapest) => self.cheapest(&mut answer),
            (b'V', Possible) | (b'N', Products) => self.narrow(&mut answer),
            _ => {}
        }
        Ok((width, answer))
    }

    fn come(&mut self, byte: u8) {
        for &candidate in &self.problem.candidates[self.counted.len()..] {
            self.counted.push(match (self.mistake, byte) {
                (ComeNotCounted, b'A') | (PrimesNotCounted, b'P') => without_outputs(candidate),
                _ => candidate,
            });
        }
    }

    fn go(&mut self, number: usize) {
        if self.mistake == LeftBehind {
            self.counted.pop();
        } else {
            self.counted.remove(number);
        }
    }

    /// The engine's page: its sets, and more.
    fn lister(&mut self, start: u64, count: u8) -> Result<(Vec<u64>, bool), u64> {
        let command = self.problem.command(&page(start, count), 0, LONGEST);
        let (_, answer) = command.map_err(number_of)?;
        Ok((sets(&answer), answer[2] == 1))
    }

    /// The engine's sets from a start on, page by page.
    fn wide(&mut self, start: u64) -> Result<Vec<u64>, u64> {
        let count = if self.mistake == ByOne { 1 } else { 255 };
        let mut list: Vec<u64> = Vec::new();
        let mut next = Some(start);
        while let Some(start) = next {
            let (page, more) = self.lister(start, count)?;
            list.extend(&page);
            next = page.last().filter(|_| more).map(|last| last + 1);
        }
        Ok(list)
    }

    fn fits(&self, set: u64) -> bool {
        let table = self.problem.table.as_ref().expect("I came first");
        match self.mistake {
            WideList => true,
            Way(i) => WRONG[i].1(table, &self.counted, set),
            _ => left(&self.counted, set).iter().all(|&terms| terms >= 0),
        }
    }

    fn fitting(&self, list: &[u64]) -> Vec<u64> {
        list.iter().copied().filter(|&set| self.fits(set)).collect()
    }

    fn none_fits(&mut self) -> bool {
        let list = self.wide(0).unwrap_or_default();
        self.fitting(&list).is_empty()
    }

    /// The cheapest of those that fit, where one does.
    fn cheapest(&mut self, answer: &mut Vec<u8>) {
        let list = self.wide(0).unwrap_or_default();
        let list = self.fitting(&list);
        if list.is_empty() {
            return;
        }
        let (prices, candidates) = (self.problem.prices(), &self.problem.candidates);
        let (cost, set) = reference::cheapest(prices, candidates, &list);
        answer.truncate(1);
        answer.extend((cost as u16).to_le_bytes());
        answer.extend(set.to_le_bytes());
    }

    /// The sets of N or V that fit.
    fn narrow(&self, answer: &mut Vec<u8>) {
        let list = self.fitting(&sets(answer));
        answer.truncate(3);
        answer[1] = list.len() as u8;
        list.iter().for_each(|set| answer.extend(set.to_le_bytes()));
    }
}

/// It has no outputs, so that it is a member and no more.
const IDLE: Candidate = Candidate::Term(reference::Term {
    care: 0,
    value: 0,
    outputs: 0,
});

fn without_outputs(candidate: Candidate) -> Candidate {
    match candidate {
        Candidate::Term(_) => IDLE,
        block => block,
    }
}
