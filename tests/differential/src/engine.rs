//! The engine behind its C interface, called over buffers with guards on both sides.

use crate::generate::Case;
use crate::reference::{Outcome, LONGEST};

extern "C" {
    fn cover_job(job: *const u8, job_len: usize, answers: *mut u8, answers_len: usize) -> u64;
}

const GUARD: usize = 64;

/// What the answer buffer holds before the call: no two neighbours are alike.
pub fn pattern(len: usize, salt: u8) -> Vec<u8> {
    (0..len)
        .map(|i| (i as u8).wrapping_mul(37).wrapping_add((i >> 8) as u8) ^ salt)
        .collect()
}

/// What a call gave back.
#[derive(Clone, PartialEq, Eq, Debug)]
pub struct Seen {
    pub packed: u64,
    pub buffer: Vec<u8>,
    pub guards_kept: bool,
    pub job_kept: bool,
}

impl Seen {
    /// The three numbers and the buffer.
    pub fn outcome(&self) -> Outcome {
        Outcome {
            number: self.packed >> 32,
            offset: (self.packed >> 16 & 0xffff) as usize,
            written: (self.packed & 0xffff) as usize,
            buffer: self.buffer.clone(),
        }
    }
}

/// Calls the engine. The case's bytes behind the job lie in memory behind it, so that an engine
/// that reads past the job's length is seen to do so.
pub fn call(case: &Case, before: &[u8]) -> Seen {
    let memory = [case.job.as_slice(), case.behind.as_slice()].concat();
    let mut job = memory.clone();
    let guard = pattern(GUARD, 0x3c);
    let mut lent = [guard.as_slice(), before, guard.as_slice()].concat();
    let end = GUARD + before.len();
    // Both pointers reach over the guards, so that the compiler may not take these as unchanged.
    let (from, to) = (job.as_mut_ptr(), lent.as_mut_ptr());
    let packed = unsafe { cover_job(from, case.job.len(), to.add(GUARD), before.len()) };
    Seen {
        packed,
        guards_kept: lent[..GUARD] == guard && lent[end..] == guard,
        job_kept: job == memory,
        buffer: lent[GUARD..end].to_vec(),
    }
}

/// The bytes that the engine writes for a job that it should accept.
pub fn answers(job: &[u8]) -> Result<Vec<u8>, String> {
    let case = Case {
        job: job.to_vec(),
        behind: Vec::new(),
        room: LONGEST,
    };
    let before = pattern(LONGEST, 0x5a);
    let seen = call(&case, &before);
    let written = seen.packed as usize & 0xffff;
    if seen.packed >> 16 != job.len() as u64 {
        return Err(format!("it gave {:#x}", seen.packed));
    }
    if !seen.guards_kept || !seen.job_kept || seen.buffer[written..] != before[written..] {
        return Err("other bytes have changed".into());
    }
    Ok(seen.buffer[..written].to_vec())
}
