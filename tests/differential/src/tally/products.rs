//! What N has met: a run fails where one of these never came.

use super::never;
use crate::format;
use crate::products::Held;
use crate::reference::MOST_PRODUCTS;

/// The jobs with an N that was come to and may stand there.
#[derive(Default)]
pub struct Multiplied {
    on_purpose: Jobs,
    drawn: Jobs,
}

#[derive(Default)]
struct Jobs {
    /// N commands that are answered, those with several sets, those whose count needs its second
    /// byte, and those with as many sets as there may be.
    answered: usize,
    several: usize,
    many: usize,
    most: usize,
    /// Refused with 12, 17 and 14.
    unheld: usize,
    too_many: usize,
    no_room: usize,
    /// Held to the pages of the same job, by the place of N among them, and to a further job.
    before: usize,
    between: usize,
    behind: usize,
    further: usize,
    pages: usize,
    /// Answered in a job with P, with A or D, and with W.
    by_primes: usize,
    by_changes: usize,
    at_prices: usize,
}

impl Multiplied {
    pub fn add(&mut self, job: &[u8], held: &Held, drawn: bool) {
        let jobs = if drawn {
            &mut self.drawn
        } else {
            &mut self.on_purpose
        };
        jobs.add(job, held);
    }

    pub fn print(&self) {
        self.on_purpose.print("made on purpose");
        self.drawn.print("drawn");
    }

    pub fn complaints(&self) -> Vec<String> {
        let mut list = Vec::new();
        for (kind, jobs) in [
            ("made on purpose", &self.on_purpose),
            ("drawn", &self.drawn),
        ] {
            let told = jobs.complaints().into_iter();
            list.extend(told.map(|what| format!("{what} in a job {kind}")));
        }
        list.extend(never(&[(
            self.on_purpose.most,
            "N never had 1,024 sets in a job made on purpose",
        )]));
        list
    }
}

impl Jobs {
    fn add(&mut self, job: &[u8], held: &Held) {
        let answered = held.counts.len();
        let at_least = |sets: usize| held.counts.iter().filter(|&&count| count >= sets).count();
        self.answered += answered;
        self.several += at_least(2);
        self.many += at_least(256);
        self.most += at_least(MOST_PRODUCTS);
        match held.refused {
            Some(12) => self.unheld += 1,
            Some(17) => self.too_many += 1,
            Some(_) => self.no_room += 1,
            None => {}
        }
        self.before += held.before;
        self.between += held.between;
        self.behind += held.behind;
        self.further += held.further;
        self.pages += held.pages;
        if answered > 0 {
            let commands = format::cut(job).unwrap_or_default();
            let has = |bytes: &[u8]| commands.iter().any(|command| bytes.contains(&command[0]));
            self.by_primes += usize::from(has(b"P"));
            self.by_changes += usize::from(has(b"AD"));
            self.at_prices += usize::from(has(b"W"));
        }
    }

    fn print(&self, kind: &str) {
        println!(
            "{} N of jobs {kind} were answered, {} with several sets, {} with 256 or more and {} \
             with 1,024; refused with 12, 17 and 14 {:?} times; held to the pages of their job \
             before, between and behind these {:?}, and {} to {} pages of a further job; {} jobs \
             have P, {} A or D and {} W",
            self.answered,
            self.several,
            self.many,
            self.most,
            [self.unheld, self.too_many, self.no_room],
            [self.before, self.between, self.behind],
            self.further,
            self.pages,
            self.by_primes,
            self.by_changes,
            self.at_prices
        );
    }

    fn complaints(&self) -> Vec<String> {
        never(&[
            (self.answered, "no N was answered"),
            (self.several, "no N had several sets"),
            (self.many, "no N had 256 sets or more"),
            (self.unheld, "no N was refused with 12"),
            (self.too_many, "no N was refused with 17"),
            (self.no_room, "no N was refused with 14"),
            (self.before, "no N before pages was held to them"),
            (self.between, "no N between pages was held to them"),
            (self.behind, "no N behind pages was held to them"),
            (self.further, "no N was held to the pages of a further job"),
            (self.by_primes, "no N was answered behind P"),
            (self.by_changes, "no N was answered beside A or D"),
            (self.at_prices, "no N was answered behind W"),
        ])
    }
}
