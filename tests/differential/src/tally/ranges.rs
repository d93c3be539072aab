//! What the jobs have met of G and V: a run fails where a kind came too seldom, in the jobs made on
//! purpose or in the drawn ones, and where a wrong way to V's list would not be seen.

mod kinds;
mod pages;

use crate::dump;
use crate::format::{self, number};
use crate::fresh;
use crate::ranged::{Held, WRONG};
use crate::reference::Outcome;
use crate::walk::walk;
use crate::without_ranges;
use kinds::{Counts, Kind, KINDS};

#[derive(Default)]
pub struct Ranges {
    on_purpose: Counts,
    drawn: Counts,
    /// For each wrong way to V's list, in how many drawn jobs it would be seen.
    wrong: [usize; WRONG.len()],
}

impl Ranges {
    fn counts(&mut self, drawn: bool) -> &mut Counts {
        if drawn {
            &mut self.drawn
        } else {
            &mut self.on_purpose
        }
    }

    /// A job on whose outcome engine and reference agree.
    pub fn add(&mut self, job: &[u8], outcome: &Outcome, drawn: bool) {
        let counts = self.counts(drawn);
        if outcome.number == 1 || !job.iter().any(|byte| b"GV".contains(byte)) {
            return;
        }
        add_refused(counts, job, outcome);
        let read = &job[..outcome.offset];
        if !format::has(read, b"GV") {
            return;
        }
        if outcome.number == 0 {
            pages::add_accepted(counts, job);
        }
        for standing in walk(job, outcome).expect("they are the answers of the commands") {
            pages::add_asked(counts, &standing);
        }
    }

    /// A job whose V commands were held to every cover.
    pub fn add_held(&mut self, held: &Held, drawn: bool) {
        let counts = self.counts(drawn);
        counts.count(Kind::Held, held.pages);
        counts.count(Kind::ByChoices, held.by_choices);
        counts.count(Kind::EqualEnds, held.equal_ends);
        counts.count(Kind::SeveralLeast, held.several_least);
        counts.count(Kind::Cheapest, held.cheapest);
        counts.count(Kind::Outside, held.outside);
        counts.count(Kind::Joined, held.joined);
        counts.count(Kind::SeveralPages, held.of_pages);
        if drawn {
            for (times, seen) in self.wrong.iter_mut().zip(held.wrong) {
                *times += usize::from(seen);
            }
        }
    }

    /// A job that was held to the one without G and V.
    pub fn add_without(&mut self, held: &without_ranges::Held, drawn: bool) {
        let counts = self.counts(drawn);
        counts.count_if(Kind::Without, held.number == 0);
        counts.count_if(Kind::WithoutRefused, held.number != 0);
        counts.count(Kind::WithoutPages, held.pages);
        counts.count(Kind::WithoutCheapest, held.cheapest);
        counts.count(Kind::WithoutProducts, held.products);
    }

    /// A job whose queries were held to fresh ones.
    pub fn add_fresh(&mut self, held: &fresh::Held, drawn: bool) {
        let counts = self.counts(drawn);
        counts.count(Kind::Fresh, held.ranged);
        counts.count(Kind::FreshLists, held.ranged_lists);
    }

    /// A record that was compared.
    pub fn add_record(&mut self, job: &[u8], held: &dump::Held, drawn: bool) {
        let counts = self.counts(drawn);
        let candidates = &held.weights.candidates;
        let other = |c: &dump::Weighed| !c.range.has(c.weight);
        let wide = |c: &dump::Weighed| c.range.low < c.range.high;
        counts.count_if(Kind::Records, candidates.iter().any(wide));
        counts.count_if(Kind::RecordsOutside, candidates.iter().any(other));
        let at_range = job.get(held.outcome.offset) == Some(&b'G');
        counts.count_if(Kind::RecordsRefused, at_range && held.outcome.number == 19);
    }

    /// Both sums, with their names.
    fn sums(&self) -> [(&Counts, &'static str); 2] {
        [
            (&self.on_purpose, "made on purpose"),
            (&self.drawn, "drawn"),
        ]
    }

    pub fn print(&self) {
        for (counts, jobs) in self.sums() {
            let of = |named: &kinds::Named| format!("{} {}", counts.times(named.kind), named.name);
            let times: Vec<String> = KINDS.iter().map(of).collect();
            println!("G and V in jobs {jobs}: {}", times.join(", "));
        }
        println!("wrong lists of V would be seen {:?} times", self.wrong);
    }

    pub fn complaints(&self) -> Vec<String> {
        let mut list = Vec::new();
        for (i, (counts, jobs)) in self.sums().into_iter().enumerate() {
            for named in &KINDS {
                let times = counts.times(named.kind);
                if times < named.least[i] {
                    let what = named.name;
                    list.push(format!("G and V in jobs {jobs}: only {times} {what}"));
                }
            }
        }
        let zero = (0..WRONG.len()).filter(|&i| self.wrong[i] == 0);
        list.extend(zero.map(|i| format!("it would not be seen: {}", WRONG[i].0)));
        list
    }
}

/// A G or V that is refused, by its number and the reason of 19.
fn add_refused(counts: &mut Counts, job: &[u8], outcome: &Outcome) {
    let rest = &job[outcome.offset..];
    match (rest.first(), outcome.number) {
        (Some(b'G'), 5) => counts.count(Kind::Cut, 1),
        (Some(b'G'), 15) => {
            counts.count(Kind::NotStanding, 1);
            counts.count_if(Kind::BothRefusals, bad_ends(rest) != [false; 2]);
        }
        (Some(b'G'), 19) => match bad_ends(rest) {
            [true, false] => counts.count(Kind::LowAboveHigh, 1),
            [false, true] => counts.count(Kind::HighAbove, 1),
            _ => {}
        },
        (Some(b'V'), 12) => counts.count(Kind::Unheld, 1),
        (Some(b'V'), 14) => counts.count(Kind::NoRoom, 1),
        _ => {}
    }
}

/// Whether low is above high, and whether high is above 850.
fn bad_ends(command: &[u8]) -> [bool; 2] {
    let (low, high) = (number(&command[2..4]), number(&command[4..6]));
    [low > high, high > 850]
}
