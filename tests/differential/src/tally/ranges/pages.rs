//! Jobs with G and V that are accepted, and the V commands that are answered.

use super::kinds::{Counts, Kind};
use crate::format::{self, number};
use crate::walk::{Query, Standing};

/// What stands, as far as it is counted: whether a G has come for it, and whether it is a block. P's
/// primes are not counted as none stands before them and no block stands behind.
#[derive(Clone, Copy, Default)]
struct Stands {
    ranged: bool,
    block: bool,
}

/// An accepted job with G or V.
pub fn add_accepted(counts: &mut Counts, job: &[u8]) {
    let commands = format::cut(job).expect("accepted");
    let mut standing = vec![Stands::default(); 64];
    let mut count = 0;
    let (mut came, mut moved, mut gone, mut come) = (false, false, false, false);
    let mut met: Vec<Kind> = Vec::new();
    for command in &commands {
        match command[0] {
            b'T' | b'A' | b'F' => {
                standing[count].block = command[0] == b'F';
                count += 1;
                come |= came && command[0] == b'A';
            }
            b'D' => {
                let taken = standing.remove(usize::from(command[1]));
                standing.push(Stands::default());
                count = count.saturating_sub(1);
                gone |= taken.ranged;
                moved |= standing[usize::from(command[1])..].iter().any(|s| s.ranged);
            }
            b'G' => {
                let stands = &mut standing[usize::from(command[1])];
                met.push(Kind::Ranged);
                met.extend(stands.ranged.then_some(Kind::Replaced));
                met.extend(stands.block.then_some(Kind::OfBlock));
                stands.ranged = true;
                came = true;
            }
            b'V' => {
                met.push(Kind::Asked);
                let kinds = [
                    (Kind::NoRange, !came),
                    (Kind::Moved, moved),
                    (Kind::Gone, gone),
                    (Kind::ComeBehind, come),
                ];
                met.extend(kinds.iter().filter(|k| k.1).map(|k| k.0));
            }
            _ => {}
        }
    }
    met.sort_unstable();
    met.dedup();
    met.into_iter().for_each(|kind| counts.count(kind, 1));
}

/// The V commands over these candidates.
pub fn add_asked(counts: &mut Counts, standing: &Standing) {
    let candidates = &standing.candidates;
    let other_range = |i: usize, j: usize| {
        candidates[i] == candidates[j] && standing.ranges[i] != standing.ranges[j]
    };
    let equal = (0..candidates.len()).any(|j| (0..j).any(|i| other_range(i, j)));
    for query in &standing.queries {
        if let (b'V', Ok(answer)) = (query.command[0], query.answer) {
            add_page(counts, query, answer);
            counts.count_if(Kind::Equal, equal);
            counts.count_if(Kind::AtPrices, standing.prices != [1, 1, 0]);
        }
    }
}

fn add_page(counts: &mut Counts, query: &Query, answer: &[u8]) {
    let (start, count) = (number(&query.command[1..9]), query.command[9]);
    let kind = match (count, answer[1], answer[2]) {
        (0, _, 0) => Kind::NothingLeft,
        (0, ..) => Kind::NothingAsked,
        (_, 0, _) => Kind::Empty,
        (count, k, _) if k < count => Kind::Partial,
        (.., 0) => Kind::Full,
        _ => Kind::More,
    };
    counts.count(kind, 1);
    counts.count_if(Kind::FromAbove, start > 0);
}
