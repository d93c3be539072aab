//! Cases made on purpose for F: its limits, its places, and jobs with blocks among their candidates.

mod jobs;
mod limits;
mod many;
mod places;

use super::draft::{page, put, ready};
use super::Case;
use crate::reference::{Block, Candidate};
use crate::rng::Rng;

type Commands = Vec<Vec<u8>>;

pub fn ready_on_purpose(rng: &mut Rng) -> Vec<Case> {
    let mut list = Vec::new();
    limits::of_limits(&mut list);
    places::of_places(rng, &mut list);
    jobs::of_jobs(rng, &mut list);
    many::of_many(rng, &mut list);
    list
}

/// A block with these vertices.
fn block(outputs: u8, vertices: &[usize], weight: u16) -> Block {
    Block::new(outputs, vertices.iter().copied(), weight)
}

/// The same as a command.
fn f(outputs: u8, vertices: &[usize], weight: u16) -> Vec<u8> {
    ready(&block(outputs, vertices, weight))
}

fn by(list: &[Candidate]) -> Commands {
    list.iter().map(put).collect()
}

/// A page with all sets, the cheapest and N.
fn ask() -> Commands {
    vec![page(0, 255), b"C".to_vec(), b"N".to_vec()]
}
