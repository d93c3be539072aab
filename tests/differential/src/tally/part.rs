//! What the jobs have met at the part: a run fails where a kind came too seldom, in the jobs made on
//! purpose or in the drawn ones, and where a wrong way to read the limits would not be seen.

mod kinds;

use crate::part::{Held, WRONG};
use kinds::{Named, KINDS};

#[derive(Default)]
pub struct Fitted {
    on_purpose: Sum,
    drawn: Sum,
}

#[derive(Default)]
struct Sum {
    held: Held,
    /// For each wrong way, in how many jobs it would be seen.
    wrong: [usize; WRONG.len()],
}

impl Fitted {
    pub fn add(&mut self, held: &Held, drawn: bool) {
        let sum = if drawn {
            &mut self.drawn
        } else {
            &mut self.on_purpose
        };
        sum.held.join(held);
        for (times, seen) in sum.wrong.iter_mut().zip(held.wrong) {
            *times += usize::from(seen);
        }
    }

    /// Both sums, with their names.
    fn sums(&self) -> [(&Sum, &'static str); 2] {
        [
            (&self.on_purpose, "made on purpose"),
            (&self.drawn, "drawn"),
        ]
    }

    pub fn print(&self) {
        for (sum, jobs) in self.sums() {
            let of = |named: &Named| format!("{} {}", sum.held.times(named.kind), named.name);
            let times: Vec<String> = KINDS.iter().map(of).collect();
            println!("the part in jobs {jobs}: {}", times.join(", "));
            println!("wrong limits would be seen {:?} times", sum.wrong);
        }
    }

    pub fn complaints(&self) -> Vec<String> {
        let mut list = Vec::new();
        for (i, (sum, jobs)) in self.sums().into_iter().enumerate() {
            for named in &KINDS {
                let times = sum.held.times(named.kind);
                if times < named.least[i] {
                    let what = named.name;
                    list.push(format!("the part in jobs {jobs}: only {times} {what}"));
                }
            }
            let zero = (0..WRONG.len()).filter(|&way| sum.wrong[way] == 0);
            list.extend(zero.map(|way| {
                let what = WRONG[way].0;
                format!("the part in jobs {jobs}: it would not be seen: {what}")
            }));
        }
        list
    }
}
