//! Engines that take F, or other commands behind it, where they may not stand, or refuse them where
//! they may.

use super::engines::{with_job, without, Wrong, WIDTH};
use crate::format;
use crate::reference::Outcome;
use crate::selftest::prices::engines::{commands, right};

/// Those that take or refuse commands at other places.
pub fn at_places() -> Vec<(String, Wrong)> {
    let mut list: Vec<(String, Wrong)> = Vec::new();
    for byte in *b"PLCN" {
        let name = format!("F is taken behind {}", char::from(byte));
        list.push((name, Box::new(move |job| taken_behind(job, byte))));
    }
    for byte in *b"RBWP" {
        let name = format!("{} is taken behind F", char::from(byte));
        list.push((name, Box::new(move |job| taken_behind_f(job, byte))));
        let name = format!("{} is taken behind an F that has gone", char::from(byte));
        list.push((name, Box::new(move |job| taken_behind_gone(job, byte))));
    }
    for byte in *b"TADFLCNE" {
        let name = format!("{} is refused behind F", char::from(byte));
        list.push((name, Box::new(move |job| refused_behind(job, b'F', byte))));
    }
    for byte in *b"IRBTADF" {
        let name = format!("F is refused behind {}", char::from(byte));
        list.push((name, Box::new(move |job| refused_behind(job, byte, b'F'))));
    }
    list
}

/// Where the second command follows the first.
fn pair(job: &[u8], first: u8, second: u8) -> Option<usize> {
    let list = commands(job);
    let follows = |two: &&[(usize, &[u8])]| two[0].1[0] == first && two[1].1[0] == second;
    list.windows(2).find(follows).map(|two| two[1].0)
}

fn refused_behind(job: &[u8], first: u8, second: u8) -> Option<Outcome> {
    let at = pair(job, first, second)?;
    let mut out = right(&job[..at]);
    // Else it was refused before.
    (out.number == 2).then(|| {
        out.number = 4;
        out
    })
}

/// F behind a query is taken as if it stood before the first; behind P it is passed over.
fn taken_behind(job: &[u8], byte: u8) -> Option<Outcome> {
    let at = pair(job, byte, b'F')?;
    let rest = without(job, at, WIDTH);
    if byte == b'P' {
        return with_job(job, rest, WIDTH);
    }
    let list = commands(job);
    let (first, _) = list.iter().find(|(_, c)| b"LCN".contains(&c[0]))?;
    let block = &job[at..at + WIDTH];
    with_job(job, [&rest[..*first], block, &rest[*first..]].concat(), 0)
}

/// W, R and B are taken as if they stood behind I; P makes its candidates the only ones.
fn taken_behind_f(job: &[u8], byte: u8) -> Option<Outcome> {
    let at = pair(job, b'F', byte)?;
    if byte == b'P' {
        let list = commands(&job[..at]);
        let kept = list.iter().filter(|(_, c)| !b"TAFD".contains(&c[0]));
        let kept: Vec<u8> = kept.flat_map(|(_, c)| c.to_vec()).collect();
        let longer = at - kept.len();
        return with_job(job, [kept, job[at..].to_vec()].concat(), longer);
    }
    let width = 1 + format::find(byte)?.width();
    let rest = without(job, at, width);
    let moved = &job[at..at + width];
    with_job(job, [&rest[..3], moved, &rest[3..]].concat(), 0)
}

/// An F and the D that takes it out again leave nothing.
fn taken_behind_gone(job: &[u8], byte: u8) -> Option<Outcome> {
    let list = commands(job);
    let gone = |three: &&[(usize, &[u8])]| {
        let bytes = [0, 1, 2].map(|i| three[i].1[0]);
        bytes == [b'F', b'D', byte]
    };
    let at = list.windows(3).find(gone)?[0].0;
    with_job(job, without(job, at, WIDTH + 2), WIDTH + 2)
}
