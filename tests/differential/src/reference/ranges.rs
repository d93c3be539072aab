//! What a candidate's weight may be, by K11, and the covers that may be the cheapest.

use super::candidate::HEAVIEST;

/// More pairs of a choice and a cover than these are not tried one by one.
const MOST_BY_CHOICES: u64 = 4_096;

/// The weights from low to high, both among them.
#[derive(Clone, Copy, PartialEq, Eq, Debug)]
pub struct Range {
    pub low: u16,
    pub high: u16,
}

impl Range {
    /// Without G both ends equal the weight.
    pub fn at(weight: u64) -> Range {
        let weight = u16::try_from(weight).expect("no term and no block costs more than 850");
        Range {
            low: weight,
            high: weight,
        }
    }

    /// By the operands of a G behind the number.
    pub fn of(ops: &[u8]) -> Range {
        Range {
            low: u16::from_le_bytes([ops[0], ops[1]]),
            high: u16::from_le_bytes([ops[2], ops[3]]),
        }
    }

    /// What refusal 19 speaks of.
    pub fn well_formed(self) -> bool {
        self.low <= self.high && self.high <= HEAVIEST
    }

    pub fn has(self, weight: u64) -> bool {
        (u64::from(self.low)..=u64::from(self.high)).contains(&weight)
    }

    fn weights(self) -> u64 {
        u64::from(self.high - self.low) + 1
    }
}

/// Of these covers, which are all the irredundant ones, those that for at least one choice of whole
/// weights within the ranges cost no more than every other; in the order in which they come.
pub fn possibly_cheapest(covers: &[u64], ranges: &[Range]) -> Vec<u64> {
    let choices = ranges
        .iter()
        .try_fold(1u64, |times, range| times.checked_mul(range.weights()));
    let covers_tried = covers.len().max(1) as u64;
    let tries = choices.and_then(|choices| choices.checked_mul(covers_tried));
    if tries.is_some_and(|tries| tries <= MOST_BY_CHOICES) {
        by_choices(covers, ranges)
    } else {
        by_favour(covers, ranges)
    }
}

fn cost(weights: &[u16], set: u64) -> u64 {
    let members = (0..weights.len()).filter(|i| set >> i & 1 == 1);
    members.map(|i| u64::from(weights[i])).sum()
}

/// The definition itself: every choice is tried.
pub fn by_choices(covers: &[u64], ranges: &[Range]) -> Vec<u64> {
    let mut found = vec![false; covers.len()];
    let mut choice: Vec<u16> = ranges.iter().map(|range| range.low).collect();
    loop {
        let costs: Vec<u64> = covers.iter().map(|&set| cost(&choice, set)).collect();
        let least = costs.iter().min();
        for (found, cost) in found.iter_mut().zip(&costs) {
            *found |= Some(cost) == least;
        }
        if !next_choice(&mut choice, ranges) {
            break;
        }
    }
    let listed = covers.iter().zip(found).filter(|(_, found)| *found);
    listed.map(|(&set, _)| set).collect()
}

/// Counts on: the first weight that is not at its high end rises, and those before it fall to their
/// low ends. False behind the last choice.
fn next_choice(choice: &mut [u16], ranges: &[Range]) -> bool {
    for (weight, range) in choice.iter_mut().zip(ranges) {
        if *weight < range.high {
            *weight += 1;
            return true;
        }
        *weight = range.low;
    }
    false
}

/// For many choices: a cover is tried at the one that favours it most, its members at their low and
/// all others at their high ends.
///
/// Why this is enough: let s and t be covers, and w a choice. w(s) - w(t) is the sum of w over the
/// members of s that t lacks, less that over the members of t that s lacks; what both have falls out.
/// The first are members of s and the second are not, so no choice makes the difference less than the
/// favouring one does. Where s costs no more than t at w, it costs no more at the favouring choice,
/// which is the same for every t and is itself a choice of whole weights within the ranges.
pub fn by_favour(covers: &[u64], ranges: &[Range]) -> Vec<u64> {
    let listed = |s: &u64| {
        let weights = favouring(ranges, *s);
        let own = cost(&weights, *s);
        covers.iter().all(|&t| own <= cost(&weights, t))
    };
    covers.iter().copied().filter(listed).collect()
}

/// The weights that favour a set most.
pub fn favouring(ranges: &[Range], set: u64) -> Vec<u16> {
    let end = |(i, range): (usize, &Range)| match set >> i & 1 {
        1 => range.low,
        _ => range.high,
    };
    ranges.iter().enumerate().map(end).collect()
}
