//! Cases made on purpose for the part: covers at its limits, pages of a list in which covers do not fit,
//! and 20. The engine gets them, too, and answers by its own list.

mod changes;
mod limits;
mod many;
mod pages;
mod places;

use super::draft::{page, ranged_page};
use super::limit_tables::LimitTable;
use super::purpose::add;
use super::Case;
use crate::reference::LONGEST;
use crate::rng::Rng;

type Commands = Vec<Vec<u8>>;

pub fn part_on_purpose(rng: &mut Rng) -> Vec<Case> {
    let mut list = Vec::new();
    limits::of_limits(&mut list);
    pages::of_pages(&mut list);
    changes::of_changes(&mut list);
    places::of_places(rng, &mut list);
    many::of_many(&mut list);
    list
}

/// What asks for all covers but L: sets that do not fit, too.
fn others() -> Commands {
    vec![b"C".to_vec(), b"N".to_vec(), ranged_page(0, 255)]
}

/// The whole list, then the others; and the other way round, as 20 ends a job.
fn ask_both_ways(list: &mut Vec<Case>, limited: &LimitTable) {
    let whole = vec![page(0, 255)];
    let behind = [whole.clone(), others()].concat();
    add(list, &limited.job(behind), LONGEST);
    let before = [others(), whole, others()].concat();
    add(list, &limited.job(before), LONGEST);
}
