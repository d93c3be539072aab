//! F at its places, cut at every length and swept.

use super::{ask, f, Commands};
use crate::format::COMMANDS;
use crate::generate::draft::{come, draft, go, prices, row, term, Draft};
use crate::generate::purpose::{add_bytes, long_job, spelled};
use crate::generate::sweeps::{every_byte, every_cut, every_room};
use crate::generate::Case;
use crate::reference::LONGEST;
use crate::rng::Rng;

pub fn of_places(rng: &mut Rng, list: &mut Vec<Case>) {
    of_their_places(list);
    of_empty_blocks(list);
    of_bad_operands(list);
    of_cuts(list);
    of_sweeps(rng, list);
    of_lengths(list);
}

/// The longer ones of the places. The row's one wanted cell is held by the sample block.
fn of_their_places(list: &mut Vec<Case>) {
    for jobs in [
        // Before I, right behind it, and I again.
        "F FE FI FIE FIFE IF IFE IFIE IRF IRFIE",
        // Where T may stand.
        "IRFE IRFFE IRTFE IRFTE IRAFE IRFAE IRTFTE IRFTFE IRAFTE IRFATE IRBFE IBRFE IWRFE IWRBFTAE",
        "IRFLE IRFCE IRFNE IRFLCNE IRTFLCNE IRFTLCNE IRAFLCNE IRFALCNE IRFFLCNE IWRFLCNE IRBFLCNE",
        // Not behind P, L, C or N, also when all candidates have gone since.
        "IPFE ILFE ICFE INFE IRPFE IRTLFE IRTCFE IRTNFE IRFLFE IRFCFE IRFNFE IRALFE IRACFE IRANFE",
        "IRPDFE IRTLDFE IRFLDFE IRFCDAFE IRFNAFE IRPAFE IRPLFE IRPNFE IWRFLFE IRLFE IRCFE IRNFE",
        // What may not follow it, also when it has gone.
        "IRFRE IRFBE IRFWE IRFPE IRFDRE IRFDBE IRFDWE IRFDPE IRTFRE IRTFPE IRAFPE IRFARE IRFAPE",
        "IWRFWE IWRFRE IWRFPE IRFTPE IRFTRE IRFDTPE IRFDARE IRFFDDPE IRFLRE IRFCPE IRFNWE IRFLBE",
        // Not T behind F and a query.
        "IRFLTE IRFCTE IRFNTE IRFDLTE",
        // It goes, and the wanted cell is held no more, and again.
        "IRFDE IRFDLE IRFDCE IRFDNE IRFDDE IRFDFE IRFDFLCE IRFDTLCE IRFDALCE IRFLDLE IRFLDALE",
        "IRTFDLE IRFTDLE IRFADLE IRAFDDLE IRTFDDLE IRFFDLCE IRFFDDLE IRTFADLCNE IRFCDNE IRFNDACE",
        // Behind E.
        "IEF IEFE IRFEF IRFEFE",
    ] {
        for job in jobs.split(' ') {
            for room in [0, 11, 64] {
                add_bytes(list, spelled(job), room);
            }
        }
    }
}

/// A block of no vertex is good without rows: each command behind it, and when it has gone.
fn of_empty_blocks(list: &mut Vec<Case>) {
    for head in ["I", "IW", "IR", "IB"] {
        for behind in COMMANDS {
            for changes in [vec![], go(0)] {
                let empty = f(1, &[], 2);
                let job = [
                    spelled(head),
                    empty,
                    changes,
                    behind.sample(),
                    b"E".to_vec(),
                ];
                add_bytes(list, job.concat(), 64);
            }
        }
    }
}

/// Where F may not stand 4 comes first, whatever its operands are and whether they are there.
fn of_bad_operands(list: &mut Vec<Case>) {
    let bad = [
        f(0, &[0], 1),
        f(2, &[0], 1),
        f(1, &[16], 1),
        f(1, &[255], 1),
        f(1, &[0], 851),
        f(1, &[1], 1),
    ];
    for head in ["", "IP", "IRTL", "IRTC", "IRTN", "IRFL", "IRPDA"] {
        for block in &bad {
            let job = [spelled(head), block.clone(), b"E".to_vec()].concat();
            add_bytes(list, job, LONGEST);
        }
    }
    // Where it may stand each of these is met, behind T, A and F too.
    for head in ["IR", "IRT", "IRA", "IRF", "IRFD", "IWR"] {
        for block in &bad {
            let job = [spelled(head), block.clone(), b"E".to_vec()].concat();
            add_bytes(list, job, LONGEST);
        }
    }
}

/// F at every length, where it would be good, where 18 or 10 waits behind 5, and where 4 comes first.
fn of_cuts(list: &mut Vec<Case>) {
    let good = f(1, &[0], 3);
    for (head, block) in [
        ("IR", good.clone()),
        ("IRT", good.clone()),
        ("IRAF", good.clone()),
        ("IR", f(0, &[0], 3)),
        ("IR", f(1, &[16], 3)),
        ("IRA", f(1, &[255], 65_535)),
        ("IRF", f(1, &[0], 851)),
        ("IR", f(1, &[3], 1)),
        ("", good.clone()),
        ("IP", good.clone()),
        ("IRTL", f(0, &[0], 851)),
        ("IRFC", good.clone()),
        ("IRFN", good),
    ] {
        let head = spelled(head);
        for case in every_cut(&[&head, &block[..], b"E"].concat(), 64) {
            if case.job.len() > head.len() {
                list.push(case);
            }
        }
    }
    // Each command behind an F that lacks its last byte is read as that.
    let whole = spelled("IRF");
    for command in COMMANDS {
        let short = whole[..whole.len() - 1].to_vec();
        add_bytes(list, [short, command.sample()].concat(), 64);
    }
}

/// Two inputs; vertices 1 and 2 are wanted and 3 is free. The block has both, for less or more than
/// two terms. Then it goes.
fn exclusive_or(weight: u16) -> Draft {
    let rows = vec![row(1, 1, 0), row(2, 1, 0), row(3, 0, 1)];
    let list = vec![term(3, 1, 1), f(1, &[1, 2], weight), come(2, 2, 1)];
    draft(2, 1, [rows, list, ask(), vec![go(1)], ask()])
}

/// Jobs with F at every length, with every buffer length and byte.
fn of_sweeps(rng: &mut Rng, list: &mut Vec<Case>) {
    let mut priced = exclusive_or(4);
    priced.commands.insert(1, prices([2, 3, 1]));
    for job in [exclusive_or(3).job(), priced.job()] {
        list.extend(every_cut(&job, LONGEST));
        list.extend(every_room(&job));
        list.extend(every_byte(rng, &job));
    }
    // Each bit of the operands, so that no vertex bit is left aside.
    let job = draft(3, 2, [vec![row(5, 1, 2)], vec![f(1, &[5], 9)], ask()]).job();
    for bit in 0..8 * 35 {
        let mut changed = job.clone();
        changed[8 + bit / 8] ^= 1 << (bit % 8);
        add_bytes(list, changed, 64);
    }
}

/// Jobs with F of the longest length and longer, and jobs of nothing but F: 64 stand.
fn of_lengths(list: &mut Vec<Case>) {
    let head = || vec![row(0, 1, 0), f(1, &[0], 850)];
    for length in [LONGEST - 1, LONGEST, LONGEST + 1] {
        add_bytes(list, long_job(1, head(), length).job(), LONGEST);
        let blocks: Commands = vec![f(1, &[0], 7); length / 36 + 1];
        let mut job = [spelled("IR"), blocks.concat()].concat();
        job.truncate(length);
        add_bytes(list, job, 9);
    }
    // One comes and goes, a term does in the last six bytes before E, and one byte is too many.
    let pair = [f(1, &[0], 7), go(0)].concat();
    let last = [term(15, 0, 1), go(0), b"E".to_vec()].concat();
    let head = spelled("IRF");
    let pairs = (LONGEST - head.len() - last.len()) / pair.len();
    let mut job = [head, pair.repeat(pairs), last].concat();
    assert_eq!(job.len(), LONGEST);
    add_bytes(list, job.clone(), 1);
    job.push(b'E');
    add_bytes(list, job, 1);
}
