//! What the jobs in another order have met: a run fails where a kind came too seldom.

use crate::reordered::{Held, Named, KINDS};

/// The jobs made on purpose for K9, and the drawn ones.
#[derive(Default)]
pub struct Orders {
    pub on_purpose: Held,
    pub drawn: Held,
}

impl Orders {
    /// Both sums, with their names.
    fn sums(&self) -> [(&Held, &'static str); 2] {
        [
            (&self.on_purpose, "made on purpose"),
            (&self.drawn, "drawn"),
        ]
    }

    pub fn print(&self) {
        for (held, jobs) in self.sums() {
            let of = |named: &Named| format!("{} {}", held.times(named.kind), named.name);
            let times: Vec<String> = KINDS.iter().map(of).collect();
            println!("jobs {jobs} in another order: {}", times.join(", "));
        }
    }

    pub fn complaints(&self) -> Vec<String> {
        let mut list = Vec::new();
        for (i, (held, jobs)) in self.sums().into_iter().enumerate() {
            for named in &KINDS {
                let times = held.times(named.kind);
                if times < named.least[i] {
                    let what = named.name;
                    list.push(format!("jobs {jobs} in another order: only {times} {what}"));
                }
            }
        }
        list
    }
}
