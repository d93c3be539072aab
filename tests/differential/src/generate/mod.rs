//! Makes jobs: sound ones, damaged ones, sweeps over one job, and those made on purpose for a
//! border or a refusal. What a command looks like comes from the table in `format.rs`, whose head
//! says where a new one is added.

mod bytes;
mod changes;
mod damage;
mod draft;
mod order;
mod prices;
mod products;
mod purpose;
mod purpose_blocks;
mod purpose_changes;
mod purpose_cubes;
mod purpose_order;
mod purpose_prices;
mod purpose_products;
mod purpose_ranges;
mod purpose_ready;
mod queries;
mod ranges;
mod ready;
mod records;
mod sound;
mod sweeps;
mod tables;

pub use draft::{
    block, come, draft, go, page, prices, put, range, ranged_page, ready, row, term, Draft, Pairs,
};
pub use order::{drawn_order, every, exchanged, reversed, rotated, sorted, terms_of, Order};
pub use prices::{drawn_prices, other_prices};
pub use products::{drawn_plan, Plan};
pub use purpose::on_purpose;
pub use purpose_cubes::{cubes_on_purpose, two_corners};
pub use purpose_order::{orders_on_purpose, Ordered};
pub use purpose_prices::prices_on_purpose;
pub use purpose_products::{by_orders, counted, products_on_purpose};
pub use purpose_ranges::ranges_on_purpose;
pub use purpose_ready::ready_on_purpose;
pub use ready::{mixed, of_cube};
pub use records::{records_drawn, records_on_purpose};
pub use tables::{pairs, random_table, terms_for};

use crate::rng::Rng;
use draft::need;

/// A job, the bytes that lie behind it in memory, and the length of the answer buffer.
#[derive(Clone)]
pub struct Case {
    pub job: Vec<u8>,
    pub behind: Vec<u8>,
    pub room: usize,
}

/// The next cases of a run, drawn.
pub fn next(rng: &mut Rng) -> Vec<Case> {
    match rng.below(412) {
        0..=219 => vec![sound::case(rng)],
        220..=339 => vec![damage::damaged(rng)],
        340..=387 => vec![damage::wild(rng)],
        388..=395 => vec![damage::noise(rng)],
        396 | 397 => vec![products::case(rng)],
        400..=411 => vec![purpose_order::case(rng)],
        398 => {
            let job = sound::short(rng).job();
            let room = need(&job).unwrap_or(0) + rng.below(3);
            sweeps::every_cut(&job, room)
        }
        _ => sweeps::every_room(&sound::short(rng).job()),
    }
}
