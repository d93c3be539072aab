//! K12: which covers the part takes.

use super::candidate::Candidate;

/// Which of the two products runs a job: the engine, or the part in a layer above it.
#[derive(Clone, Copy, PartialEq, Eq, Debug)]
pub enum Layer {
    Engine,
    Part,
}

pub const LAYERS: [Layer; 2] = [Layer::Engine, Layer::Part];

/// The terms that the part has in all, and for an output.
pub const MOST_MEMBERS: usize = 32;
pub const MOST_FOR_OUTPUT: usize = 7;

/// The outputs of each member, a term or a block.
fn outputs_of_members(candidates: &[Candidate], set: u64) -> Vec<u8> {
    let numbered = candidates.iter().enumerate();
    let members = numbered.filter(|(i, _)| set >> i & 1 == 1);
    members.map(|(_, candidate)| candidate.outputs()).collect()
}

/// At most 32 members and, for each output, at most 7 members whose outputs have its bit.
pub fn fits_part(candidates: &[Candidate], set: u64) -> bool {
    let members = outputs_of_members(candidates, set);
    let for_output = |j: usize| members.iter().filter(|&o| o >> j & 1 == 1).count();
    members.len() <= MOST_MEMBERS && (0..8).all(|j| for_output(j) <= MOST_FOR_OUTPUT)
}
