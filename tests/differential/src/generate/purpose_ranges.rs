//! Cases made on purpose for G and V: the limits of G, the places of both, and lists that go by the
//! ranges.

mod changes;
mod jobs;
mod limits;
mod many;
mod places;

use super::draft::{draft, page, range, ranged_page, term, Draft};
use super::purpose::all_wanted;
use super::Case;
use crate::reference::Range;
use crate::rng::Rng;

type Commands = Vec<Vec<u8>>;

pub fn ranges_on_purpose(rng: &mut Rng) -> Vec<Case> {
    let mut list = Vec::new();
    limits::of_limits(&mut list);
    places::of_places(rng, &mut list);
    jobs::of_jobs(rng, &mut list);
    changes::of_changes(rng, &mut list);
    many::of_many(&mut list);
    list
}

fn g(number: u8, low: u16, high: u16) -> Vec<u8> {
    range(number, Range { low, high })
}

/// The whole list that goes by the ranges, and what does not.
fn ask() -> Commands {
    vec![
        ranged_page(0, 255),
        page(0, 255),
        b"C".to_vec(),
        b"N".to_vec(),
    ]
}

/// One input, both vertices wanted, and so many terms each of which holds both: any one is a cover,
/// and is listed where its low end is not above the least high end of the others.
fn one_of(count: usize, behind: Commands) -> Draft {
    let terms = vec![term(0, 0, 1); count];
    draft(1, 1, [all_wanted(1, 1), terms, behind])
}
