//! An engine for G and V, right or with one mistake. What is not of K11 is left to the reference's
//! problem, whose ranges are not looked at. V and C are in `engines/queries.rs`.

mod queries;

use super::mistakes::Mistake::{self, *};
use crate::format::{self, number};
use crate::reference::{Candidate, Outcome, Prices, Problem, Stop, LONGEST};
use crate::walk::Ends;

pub struct Engine {
    mistake: Mistake,
    problem: Problem,
    /// The ends of each standing candidate, and by number what was there before.
    ranges: Vec<Ends>,
    old: Vec<Option<Ends>>,
    /// Whether a G has come for it, and the weight for C where G has changed it.
    set: Vec<bool>,
    weights: Vec<u64>,
    last: u8,
    first_list: Option<Vec<u64>>,
}

type Answer = Result<(usize, Vec<u8>), u64>;

/// What an engine with this mistake makes of a job over such a buffer.
pub fn run(mistake: Mistake, job: &[u8], before: &[u8]) -> Outcome {
    let mut out = Outcome {
        number: 0,
        offset: 0,
        written: 0,
        buffer: before.to_vec(),
    };
    if job.len() > LONGEST || before.len() > LONGEST {
        out.number = 1;
        return out;
    }
    let mut engine = Engine {
        mistake,
        problem: Problem::new(),
        ranges: Vec::new(),
        old: vec![None; 64],
        set: Vec::new(),
        weights: Vec::new(),
        last: 0,
        first_list: None,
    };
    loop {
        let free = before.len() - out.written;
        match engine.step(job, out.offset, free) {
            Err(number) => {
                out.number = number;
                let follows = mistake == AtWhatFollows && number == 19;
                out.offset += if follows { 6 } else { 0 };
                return out;
            }
            Ok((width, answer)) => {
                let end = out.written + answer.len();
                out.buffer[out.written..end].copy_from_slice(&answer);
                out.written = end;
                let ended = job[out.offset] == b'E';
                engine.last = job[out.offset];
                out.offset += width;
                if ended {
                    return out;
                }
            }
        }
    }
}

impl Engine {
    fn step(&mut self, job: &[u8], at: usize, free: usize) -> Answer {
        let byte = *job.get(at).ok_or(2u64)?;
        if self.mistake == Refused(self.last, byte) {
            return Err(4);
        }
        let own = self.problem.table.is_some() && matches!(byte, b'G' | b'V' | b'C');
        if !own {
            return self.by_the_problem(job, at, free);
        }
        let width = 1 + format::find(byte).expect("a command").width();
        let ops = job.get(at + 1..at + width);
        if self.mistake == EndsBeforeCut && byte == b'G' && ops.is_none() {
            let low = job.get(at + 2..at + 4).map_or(0, number);
            return Err(if low > 850 { 19 } else { 5 });
        }
        let ops = ops.ok_or(5u64)?;
        let answer = match byte {
            b'G' => self.range(ops)?,
            b'V' => self.page(ops, free)?,
            _ => self.cheapest()?,
        };
        if answer.len() > free {
            return Err(14);
        }
        Ok((width, answer))
    }

    /// The commands that K11 leaves as they were; what comes and goes is followed.
    fn by_the_problem(&mut self, job: &[u8], at: usize, free: usize) -> Answer {
        let refused = |stop| match stop {
            Stop::Refused(number) => number,
            Stop::TooMany => unreachable!("the reference had it"),
        };
        let (width, answer) = self.problem.command(job, at, free).map_err(refused)?;
        match job[at] {
            b'T' | b'A' | b'F' => self.come(),
            b'P' => (0..self.problem.candidates.len()).for_each(|_| self.come()),
            b'D' => self.go(usize::from(job[at + 1])),
            _ => {}
        }
        Ok((width, answer))
    }

    fn own(&self, i: usize) -> u64 {
        self.problem.prices().cost_of(&self.problem.candidates[i])
    }

    /// The next of the problem's candidates comes.
    fn come(&mut self) {
        let i = self.ranges.len();
        let candidate = self.problem.candidates[i];
        let weight = self.own(i);
        let is_block = candidate.block().is_some();
        let ends = match self.mistake {
            KeptByNumber => self.old[i].unwrap_or([weight; 2]),
            NewFree => [0; 2],
            NewWide => [0, 850],
            NewAtUsualPrices => [Prices::USUAL.cost_of(&candidate); 2],
            NewBlockFree if is_block => [0; 2],
            _ => [weight; 2],
        };
        self.ranges.push(ends);
        self.set.push(false);
        self.weights.push(weight);
        if self.mistake == LostAtCome {
            self.lose(0);
        }
    }

    fn go(&mut self, number: usize) {
        self.weights.remove(number);
        self.set.remove(number);
        match self.mistake {
            LeftBehind => drop(self.ranges.pop()),
            _ => drop(self.ranges.remove(number)),
        }
        match self.mistake {
            LostAtGo => self.lose(0),
            AboveLost => self.lose(number),
            _ => {}
        }
    }

    /// From this number on the ranges are the weights again.
    fn lose(&mut self, from: usize) {
        for i in from..self.ranges.len() {
            self.ranges[i] = [self.own(i); 2];
        }
    }

    fn range(&mut self, ops: &[u8]) -> Result<Vec<u8>, u64> {
        let (i, ends) = self.read(ops);
        self.tried(i, ends)?;
        if self.mistake != RangeLeavesPlace {
            self.problem.queries_came = true;
        }
        if i < self.ranges.len() {
            self.take(i, ends);
        }
        Ok(match self.mistake {
            Answered => vec![0x67],
            _ => Vec::new(),
        })
    }

    fn read(&self, ops: &[u8]) -> (usize, Ends) {
        let mut ops = ops.to_vec();
        match self.mistake {
            EndsExchanged => ops[1..].rotate_left(2),
            BytesExchanged => ops[1..].chunks_mut(2).for_each(|two| two.swap(0, 1)),
            LowBytesAlone => (ops[2], ops[4]) = (0, 0),
            // 0 names none.
            NumbersFromOne => ops[0] = ops[0].wrapping_sub(1),
            _ => {}
        }
        (ops[0].into(), [number(&ops[1..3]), number(&ops[3..5])])
    }

    /// 15, then 19.
    fn tried(&self, i: usize, [low, high]: Ends) -> Result<(), u64> {
        let count = self.ranges.len();
        let stands = match self.mistake {
            NotStandingTaken => true,
            CountTaken => i <= count,
            _ => i < count,
        };
        let most = match self.mistake {
            HeavyTaken => 851,
            HighNotTried => u64::MAX,
            HeaviestRefused => 849,
            _ => 850,
        };
        let rises = match self.mistake {
            EqualRefused => low < high,
            LowAboveHighTaken => true,
            _ => low <= high,
        };
        let good = rises && high <= most && self.suits(i, [low, high]);
        let bad_number = if self.mistake == Eighteen { 18 } else { 19 };
        match (stands, good) {
            (false, false) if self.mistake == EndsFirst => Err(bad_number),
            (false, _) => Err(15),
            (true, false) => Err(bad_number),
            (true, true) => Ok(()),
        }
    }

    fn suits(&self, i: usize, [low, high]: Ends) -> bool {
        let Some(candidate) = self.problem.candidates.get(i) else {
            return true;
        };
        match self.mistake {
            OutsideRefused => (low..=high).contains(&self.own(i)),
            BlockRefused => matches!(candidate, Candidate::Term(_)),
            _ => true,
        }
    }

    fn take(&mut self, i: usize, [low, high]: Ends) {
        let before = self.ranges[i];
        let narrowed = [low.max(before[0]), high.min(before[1])];
        let again = self.set[i];
        let ends = match self.mistake {
            FirstKept if again => before,
            Widened if again => [low.min(before[0]), high.max(before[1])],
            Narrowed if again && narrowed[0] <= narrowed[1] => narrowed,
            LowAlone => [low; 2],
            HighAlone => [high; 2],
            _ => [low, high],
        };
        match self.mistake {
            OnlyLast => self.lose(0),
            WeightSet => self.weights[i] = low,
            WeightClamped => self.weights[i] = self.weights[i].clamp(low, high.max(low)),
            _ => {}
        }
        let candidates = &self.problem.candidates;
        for (j, candidate) in candidates.iter().enumerate() {
            if j == i || (self.mistake == EqualsShare && *candidate == candidates[i]) {
                self.ranges[j] = ends;
            }
        }
        self.set[i] = true;
        self.old[i] = Some(ends);
    }
}
