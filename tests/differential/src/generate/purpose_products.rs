//! Cases made on purpose for N: tables whose products are counted, cells in orders that decide
//! about 17, and jobs around N.

mod jobs;
mod limits;
mod orders;
mod places;

pub use limits::counted;
pub use orders::by_orders;

use super::draft::page;
use super::Case;
use crate::reference::MOST_PRODUCTS;
use crate::rng::Rng;

type Commands = Vec<Vec<u8>>;

/// The bytes of an answer with as many sets as there may be.
const LONGEST_ANSWER: usize = 3 + 8 * MOST_PRODUCTS;

pub fn products_on_purpose(rng: &mut Rng) -> Vec<Case> {
    let mut list = Vec::new();
    places::of_places(rng, &mut list);
    limits::of_limits(rng, &mut list);
    orders::of_orders(rng, &mut list);
    jobs::of_jobs(rng, &mut list);
    list
}

fn multiply() -> Commands {
    vec![vec![b'N']]
}

/// A page before N and one behind it.
fn amid_pages() -> Commands {
    vec![page(0, 255), vec![b'N'], page(0, 2)]
}
