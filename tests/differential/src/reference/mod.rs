//! The reference: the paper's definitions tried by brute force, one after the other.
//! It shares no code with the engine and is meant to be plain rather than quick.

mod candidate;
mod covers;
mod cubes;
mod job;
mod presence;
mod prices;
mod products;
mod ranges;
mod record;
mod rival;
mod table;

pub use candidate::{of_terms, Block, Candidate, HEAVIEST, VERTEX_BYTES};
pub use covers::{
    cheapest, cost, covers_by_products, covers_by_subsets, irredundant_covers, is_cover, sums,
    Covers,
};
pub use cubes::{cube_number, cube_of, spread, weight, Cubes, ENTRIES};
pub use job::{
    asked, left_by, run, Asked, Outcome, Problem, Query, Stop, LONGEST, MOST_CANDIDATES,
};
pub use presence::{delta, implicants, points, prime_implicants, sum, Presence};
pub use prices::{Prices, HIGHEST};
pub use products::{
    holders, joined, next_by_pairs, next_by_size, products, Products, MOST_PRODUCTS,
};
pub use ranges::{by_choices, by_favour, favouring, possibly_cheapest, Range};
pub use record::record;
pub use rival::{least_cost, rival, rival_at_any_price};
pub use table::{below, Cell, Table, Term};
