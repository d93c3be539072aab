//! What the jobs have met of F and its blocks: a run fails where a kind came too seldom, in the jobs
//! made on purpose or in the drawn ones, and where a wrong way to charge blocks would not be seen.

mod kinds;
mod refused;
mod standing;

use crate::charged::{charge_set, Way, WRONG_BLOCKS};
use crate::dump;
use crate::format;
use crate::fresh;
use crate::listing;
use crate::ready::Held;
use crate::reference::{self, Asked, Outcome, Query};
use crate::walk::walk;
use kinds::{Counts, Kind, KINDS};

#[derive(Default)]
pub struct Ready {
    on_purpose: Counts,
    drawn: Counts,
    /// For each wrong way to charge blocks, how often it would be seen in a drawn job.
    wrong: [usize; WRONG_BLOCKS.len()],
}

impl Ready {
    fn counts(&mut self, drawn: bool) -> &mut Counts {
        if drawn {
            &mut self.drawn
        } else {
            &mut self.on_purpose
        }
    }

    /// A job on whose outcome engine and reference agree.
    pub fn add(&mut self, job: &[u8], outcome: &Outcome, drawn: bool) {
        let counts = self.counts(drawn);
        if outcome.number == 1 || !job.contains(&b'F') {
            return;
        }
        refused::add(counts, job, outcome);
        let read = &job[..outcome.offset];
        if !format::has(read, b"F") {
            return;
        }
        if outcome.number == 0 {
            standing::add_accepted(counts, job, outcome);
        }
        for standing in walk(job, outcome).expect("they are the answers of the commands") {
            standing::add_asked(counts, &standing);
        }
    }

    /// A job that was held to the one with blocks for terms.
    pub fn add_held(&mut self, held: &Held, drawn: bool) {
        let counts = self.counts(drawn);
        counts.count_if(Kind::ForTerms, held.number == 0);
        counts.count_if(Kind::ForTermsRefused, held.number != 0);
        counts.count_if(Kind::ForTermsOff, held.number == 10);
        counts.count_if(Kind::ForTermsFull, held.number == 11);
        counts.count_if(Kind::ForSomeTerms, held.blocks > 0 && held.terms_left);
        counts.count(Kind::ForTermsPages, held.pages);
        counts.count(Kind::ForTermsCheapest, held.cheapest);
        counts.count(Kind::ForTermsProducts, held.products);
    }

    /// A job with W that was held to other prices.
    pub fn add_listing(&mut self, held: &listing::Held, drawn: bool) {
        self.counts(drawn).count(Kind::Untouched, held.of_blocks);
    }

    /// A job whose queries were held to fresh ones.
    pub fn add_fresh(&mut self, held: &fresh::Held, drawn: bool) {
        self.counts(drawn).count(Kind::Fresh, held.with_blocks);
    }

    /// A record that was compared.
    pub fn add_record(&mut self, job: &[u8], held: &dump::Held, drawn: bool) {
        let counts = self.counts(drawn);
        let candidates = held.weights.candidates.iter();
        let blocks = candidates.filter_map(|c| c.candidate.block()).count();
        counts.count_if(Kind::Records, blocks > 0);
        let priced = blocks > 0 && held.weights.prices != [1, 1, 0];
        counts.count_if(Kind::RecordsAtPrices, priced);
        let changes = standing::changes(job, &held.outcome);
        counts.count_if(Kind::RecordsMoved, blocks > 0 && changes.moved);
        let at_block = job.get(held.outcome.offset) == Some(&b'F');
        counts.count_if(Kind::RecordsRefused, at_block && held.outcome.number == 18);
    }

    /// A C of a drawn job, with the irredundant covers.
    pub fn add_cheapest(&mut self, asked: &Asked, query: &Query, covers: &[u64]) {
        let (p, candidates) = (asked.prices, &query.candidates);
        if candidates.iter().all(|c| c.block().is_none()) {
            return;
        }
        let due = reference::cheapest(p, candidates, covers);
        let operands = [p.term, p.literal, p.connection];
        for (seen, (_, way)) in self.wrong.iter_mut().zip(WRONG_BLOCKS) {
            let way = Way::of_blocks(way);
            let by_way = |&set: &u64| (charge_set(way, operands, candidates, set), set);
            *seen += usize::from(covers.iter().map(by_way).min() != Some(due));
        }
    }

    /// Both sums, with their names.
    fn sums(&self) -> [(&Counts, &'static str); 2] {
        [
            (&self.on_purpose, "made on purpose"),
            (&self.drawn, "drawn"),
        ]
    }

    pub fn print(&self) {
        for (counts, jobs) in self.sums() {
            let of = |named: &kinds::Named| format!("{} {}", counts.times(named.kind), named.name);
            let times: Vec<String> = KINDS.iter().map(of).collect();
            println!("F in jobs {jobs}: {}", times.join(", "));
        }
        let wrong = &self.wrong;
        println!("wrong charges of blocks would be seen {wrong:?} times");
    }

    pub fn complaints(&self) -> Vec<String> {
        let mut list = Vec::new();
        for (i, (counts, jobs)) in self.sums().into_iter().enumerate() {
            for named in &KINDS {
                let times = counts.times(named.kind);
                if times < named.least[i] {
                    let what = named.name;
                    list.push(format!("F in jobs {jobs}: only {times} {what}"));
                }
            }
        }
        let zero = (0..WRONG_BLOCKS.len()).filter(|&i| self.wrong[i] == 0);
        list.extend(zero.map(|i| format!("it would not be seen: {}", WRONG_BLOCKS[i].0)));
        list
    }
}
