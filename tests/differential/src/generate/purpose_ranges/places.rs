//! G and V at their places, cut at every length and swept.

use super::{ask, g, one_of, Commands};
use crate::format::COMMANDS;
use crate::generate::draft::{come, draft, go, prices, ranged_page, row, term, Draft};
use crate::generate::purpose::{add_bytes, long_job, spelled};
use crate::generate::sweeps::{every_byte, every_cut, every_room};
use crate::generate::Case;
use crate::reference::LONGEST;
use crate::rng::Rng;

pub fn of_places(rng: &mut Rng, list: &mut Vec<Case>) {
    of_their_places(list);
    of_every_neighbour(list);
    of_bad_operands(list);
    of_cuts(list);
    of_sweeps(rng, list);
    of_lengths(list);
}

/// The longer ones of the places. The row's one wanted cell is held by the sample term.
fn of_their_places(list: &mut Vec<Case>) {
    for jobs in [
        // Before I, and where no candidate stands.
        "G V GE VE GI VI GIE VIE IG IV IGE IVE IVGE IRG IRV IRGE IRVE IRBV IWV IWVE IWG IWRV IBVE IBG",
        // Behind candidates by each command.
        "IRTGE IRTVE IRTGVE IRTVGE IRTGGVE IRTVVE IRAGVE IRFGVE IRPGVE IRTFAGVE IWRTGVE IRBTGVE",
        "IRTGLCNVE IRTLGVE IRTCGVE IRTNGVE IRTVLCNE IRPVE IRPVGVE IRPGLCNVE IBRAGVE IRFVGVE",
        // Candidates come and go between.
        "IRTGAVE IRTGADVE IRTAGDVE IRTAVDVE IRTGDVE IRTGDAVE IRTVDE IRTVDVE IRTVDAVE IRTAGVDVE",
        "IRTGDGE IRTAGDGVE IRTGDAGVE IRPGDE IRPGDAVE IRFGDAVE IRFAGDVE IRTVAGVDVGVE",
        // Behind E.
        "IEG IEV IEGE IEVE IRTEG IRTEV IRTGEV IRTVEG",
    ] {
        for job in jobs.split(' ') {
            for room in [0, 11, 64] {
                add_bytes(list, spelled(job), room);
            }
        }
    }
}

/// Each command right behind G and V and right before them, also where the candidates have gone.
fn of_every_neighbour(list: &mut Vec<Case>) {
    let heads = ["IRT", "IRA", "IRF", "IRP", "IWRT", "IRTF", "IRTA", "IRTL"];
    for command in COMMANDS {
        for head in heads {
            for own in ["G", "V", "GV", "VG", "GD", "VD", "GA"] {
                let job = [spelled(head), spelled(own), command.sample(), spelled("E")];
                add_bytes(list, job.concat(), 64);
            }
            for own in ["G", "V"] {
                let job = [spelled(head), command.sample(), spelled(own), spelled("E")];
                add_bytes(list, job.concat(), 64);
            }
        }
        // With nothing wanted V is answered without a candidate.
        for head in ["IV", "IWV", "IBV", "IVV"] {
            let job = [spelled(head), command.sample(), spelled("E")];
            add_bytes(list, job.concat(), 64);
        }
    }
    // A row that would be good, if it might stand there.
    let further = row(1, 0, 1);
    for head in ["IRTG", "IRTV", "IRPV", "IRFGV", "IBV"] {
        let job = [spelled(head), further.clone(), spelled("E")];
        add_bytes(list, job.concat(), 64);
    }
}

/// Where G may not stand 4 comes first, whatever its operands are.
fn of_bad_operands(list: &mut Vec<Case>) {
    let bad = [g(0, 2, 1), g(0, 0, 851), g(1, 0, 0), g(255, 900, 0)];
    for head in ["", "IRT", "IRTG", "IRTV", "IRTD", "IRP", "IRTE"] {
        for range in &bad {
            let job = [spelled(head), range.clone(), b"E".to_vec()].concat();
            add_bytes(list, job, 64);
        }
    }
}

/// Both at every length: where they would be good, where 15, 19 or 12 waits behind 5, and where 4
/// comes first.
fn of_cuts(list: &mut Vec<Case>) {
    for (head, last) in [
        ("IRT", g(0, 1, 2)),
        ("IRTG", g(0, 0, 850)),
        ("IRT", g(1, 1, 2)),
        ("IRT", g(0, 2, 1)),
        ("IRT", g(0, 0, 0xffff)),
        ("IRT", g(0, 851, 851)),
        ("IR", g(0, 851, 0)),
        ("", g(0, 1, 2)),
        ("IRT", ranged_page(0, 9)),
        ("IRTG", ranged_page(u64::MAX, 255)),
        ("IR", ranged_page(0, 9)),
        ("", ranged_page(0, 9)),
    ] {
        let head = spelled(head);
        for case in every_cut(&[&head, &last[..], b"E"].concat(), 64) {
            if case.job.len() > head.len() {
                list.push(case);
            }
        }
    }
    // Each command behind a G or V that lacks its last byte is read as that.
    for head in ["IRTG", "IRTV"] {
        let whole = spelled(head);
        for command in COMMANDS {
            let short = whole[..whole.len() - 1].to_vec();
            add_bytes(list, [short, command.sample()].concat(), 64);
        }
    }
}

/// Two inputs, three wanted vertices: a term for each, one for two of them, and ranges that come, are
/// replaced, and go with their candidates.
fn swept() -> Draft {
    let rows: Commands = vec![row(1, 1, 0), row(2, 1, 0), row(3, 1, 0)];
    let terms = vec![term(3, 1, 1), term(3, 2, 1), come(1, 1, 1), term(2, 2, 1)];
    let behind = vec![
        g(0, 1, 4),
        ranged_page(0, 2),
        ranged_page(6, 1),
        g(3, 2, 2),
        g(3, 0, 300),
        b"C".to_vec(),
        ranged_page(0, 9),
        go(0),
        come(3, 3, 1),
        ranged_page(0, 9),
    ];
    draft(2, 1, [rows, terms, behind])
}

/// Jobs with G and V at every length, with every buffer length and byte.
fn of_sweeps(rng: &mut Rng, list: &mut Vec<Case>) {
    let mut priced = swept();
    priced.commands.insert(1, prices([2, 3, 1]));
    let short = one_of(3, vec![g(1, 0, 1), ranged_page(0, 2), ranged_page(3, 2)]);
    for job in [swept().job(), priced.job(), short.job()] {
        list.extend(every_cut(&job, LONGEST));
        list.extend(every_room(&job));
        list.extend(every_byte(rng, &job));
    }
}

/// Jobs with G and V of the longest length and longer, and answers that just fill the buffer.
fn of_lengths(list: &mut Vec<Case>) {
    let head = || [vec![row(0, 1, 0), term(1, 0, 1), g(0, 0, 850)], ask()].concat();
    for length in [LONGEST - 1, LONGEST, LONGEST + 1] {
        add_bytes(list, long_job(1, head(), length).job(), LONGEST);
        let ranges: Commands = vec![g(0, 3, 7); length / 6 + 1];
        let mut job = [spelled("IRT"), ranges.concat()].concat();
        job.truncate(length);
        add_bytes(list, job, 9);
    }
    // 2,978 pages of one set and 9 bytes, and E's answer.
    let pages = vec![ranged_page(0, 1); 2_978];
    let job = one_of(1, [pages, vec![ranged_page(9, 1); 3]].concat()).job();
    for room in [LONGEST - 1, LONGEST, LONGEST + 1] {
        add_bytes(list, job.clone(), room);
    }
}
