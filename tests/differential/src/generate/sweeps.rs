//! Sweeps: one job at every length, with every buffer length, with every byte changed.

use super::bytes::likely_byte;
use super::draft::need;
use super::Case;
use crate::reference::LONGEST;
use crate::rng::Rng;

/// The job cut at every length, what was cut off lying behind it.
pub fn every_cut(job: &[u8], room: usize) -> Vec<Case> {
    let cut = |length: usize| {
        let (job, behind) = job.split_at(length);
        Case {
            job: job.to_vec(),
            behind: behind.to_vec(),
            room,
        }
    };
    (0..=job.len()).map(cut).collect()
}

/// The job with every buffer length up to a little above its need.
pub fn every_room(job: &[u8]) -> Vec<Case> {
    let end = need(job).unwrap_or(0) + 4;
    (0..end)
        .map(|room| Case {
            job: job.to_vec(),
            behind: vec![b'E'],
            room,
        })
        .collect()
}

/// Each byte of the job changed in turn.
pub fn every_byte(rng: &mut Rng, job: &[u8]) -> Vec<Case> {
    let mut list = Vec::new();
    for place in 0..job.len() {
        for byte in [
            job[place] ^ 1,
            job[place].wrapping_add(2),
            0xff,
            likely_byte(rng),
        ] {
            let mut changed = job.to_vec();
            changed[place] = byte;
            list.push(Case {
                job: changed,
                behind: vec![b'E'],
                room: LONGEST,
            });
        }
    }
    list
}
