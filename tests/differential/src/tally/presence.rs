//! What the drawn jobs have met of document 000: a run fails where one of these never came.

use super::never;
use crate::implicants::Held;

/// The sum of what the drawn jobs were held to.
#[derive(Default)]
pub struct Presences {
    sum: Held,
    /// Jobs with a 12 that the document's delta would have let pass: a wanted cell that no
    /// candidate holds is dropped.
    passed_by_delta: usize,
    /// Jobs whose list the delta would have changed: a wanted cell that all hold is dropped.
    changed_by_delta: usize,
}

impl Presences {
    pub fn add(&mut self, held: &Held) {
        self.sum.answered += held.answered;
        self.sum.refused += held.refused;
        self.sum.sets += held.sets;
        self.sum.tried += held.tried;
        self.sum.pages += held.pages;
        self.sum.lists += held.lists;
        self.sum.products += held.products;
        self.passed_by_delta += usize::from(held.passed_by_delta);
        self.changed_by_delta += usize::from(held.changed_by_delta);
    }

    pub fn print(&self) {
        let sum = &self.sum;
        println!(
            "{} L, C and N of drawn jobs were held to the presence function, {} more were refused \
             by it, {} sets are prime implicants; {} sets were tried, {} pages held to all prime \
             implicants, {} of these whole lists, and {} N; the delta would let 12 pass in {} \
             jobs and change the list of {}",
            sum.answered,
            sum.refused,
            sum.sets,
            sum.tried,
            sum.pages,
            sum.lists,
            sum.products,
            self.passed_by_delta,
            self.changed_by_delta
        );
    }

    pub fn complaints(&self) -> Vec<String> {
        let sum = &self.sum;
        never(&[
            (
                sum.answered,
                "no L, C or N was held to the presence function",
            ),
            (
                sum.refused,
                "the presence function never refused an L, C or N",
            ),
            (sum.sets, "no set was held to the presence function"),
            (sum.tried, "the presence of every set was never tried"),
            (sum.pages, "no page was held to all prime implicants"),
            (sum.lists, "no whole list was held to all prime implicants"),
            (sum.products, "no N was held to all prime implicants"),
            (
                self.passed_by_delta,
                "the delta would never let a refusal 12 pass",
            ),
            (self.changed_by_delta, "the delta would never change a list"),
        ])
    }
}
