//! N at its places, cut and swept: with the commands before which it stands and those that may not
//! follow it.

use super::Commands;
use crate::format::COMMANDS;
use crate::generate::draft::{page, prices, Draft};
use crate::generate::purpose::{add_bytes, long_job, spelled};
use crate::generate::sweeps::{every_byte, every_cut, every_room};
use crate::generate::Case;
use crate::reference::LONGEST;
use crate::rng::Rng;
use crate::selftest::{bytes, first_term_gone, marked, priced, prime_gone, seventh_term};

pub fn of_places(rng: &mut Rng, list: &mut Vec<Case>) {
    of_their_places(list);
    of_bad_operands(list);
    of_marked_cases(list);
    of_sweeps(rng, list);
    of_lengths(list);
}

/// The longer ones of the places. The row's one wanted cell is held by the sample term.
fn of_their_places(list: &mut Vec<Case>) {
    for jobs in [
        // Before I, right behind it, twice, and I again.
        "N NE NI NIE NINE IN INE INNE INNNE INIE INNIE IRTNIE",
        // Behind each command and before each, where that may stand.
        "IWNE IRNE IBNE IRTNE IRANE IRPNE IRLNE IRCNE IPNE IBPNE IRBTNE IRTDNE IRADNE IRPDNE",
        "INAE INDE INLE INCE IRTNAE IRTNDE IRTNLE IRTNCE IRPNAE IRPNDE IRPNLE IRPNCE IRANDANE",
        "IRTLNCNLNE IRTNLCNE IRPLNDNALNE IRANDALNE IRPCNDALNE IRTADNLCNE IWRBTNLCNE IWRPNCNE",
        // What may not follow it, also when all candidates have gone since.
        "INWE INRE INBE INTE INPE IRNWE IRTNWE IRTNRE IRTNBE IRTNTE IRTNPE IRANTE IRANRE IRANPE",
        "IRPNWE IRPNRE IRPNBE IRPNTE IRPNPE IWNWE IWRNRE IWRTNTE IBNBE IBNTE IBNPE IBNRE IBNWE",
        "IRTNDWE IRTNDRE IRTNDTE IRTNDPE INDAE IRTNATE IRANDTE IRPNDTE IRPNDPE IRTNLTE IRTNCPE",
        // The wanted cell is held by none, no more, and again.
        "IRN IRADNE IRTNDNE IRTNDANE IRPNDNE IRPNDANE IRTLDNE IRTCDNE",
        // Behind E.
        "IEN IENE INEN INENE IRTNEN IRTNENE",
    ] {
        for job in jobs.split(' ') {
            for room in [0, 11, 64] {
                add_bytes(list, spelled(job), room);
            }
        }
    }
}

/// What may not follow N is refused with 4 before its operands are looked at, missing or bad.
fn of_bad_operands(list: &mut Vec<Case>) {
    for head in ["IN", "IRTN", "IRPN", "IWN"] {
        for bad in [
            "57 33 00 00",
            "52 ff ff ff",
            "42 ff",
            "54 00",
            "54 ff ff 00",
        ] {
            let job = [spelled(head), bytes(bad)].concat();
            add_bytes(list, job.clone(), LONGEST);
            add_bytes(list, [job, b"E".to_vec()].concat(), LONGEST);
        }
    }
    // N has no operands: each byte behind it is the next command.
    for byte in 0..=255 {
        add_bytes(list, [spelled("IRTN"), vec![byte]].concat(), 64);
    }
    for command in COMMANDS {
        let sample = command.sample();
        for length in 1..=sample.len() {
            let job = [spelled("IRTN"), sample[..length].to_vec()].concat();
            add_bytes(list, job, 64);
        }
    }
}

/// The job with N before, between and behind its queries.
fn amid(mut draft: Draft) -> Draft {
    let is_query = |command: &Vec<u8>| matches!(command[0], b'L' | b'C');
    let mut commands: Commands = Vec::new();
    for command in draft.commands {
        if is_query(&command) {
            commands.push(vec![b'N']);
        }
        commands.push(command);
    }
    // Before E.
    commands.insert(commands.len() - 1, vec![b'N']);
    draft.commands = commands;
    draft
}

/// The job with N for its queries.
fn instead(mut draft: Draft) -> Draft {
    for command in &mut draft.commands {
        if matches!(command[0], b'L' | b'C') {
            *command = vec![b'N'];
        }
    }
    draft
}

/// The marked cases with N amid their queries and instead, over every buffer; at other prices.
fn of_marked_cases(list: &mut Vec<Case>) {
    for case in "acdefgh".chars() {
        list.extend(every_room(&instead(marked(case)).job()));
        let job = amid(marked(case)).job();
        add_bytes(list, job, LONGEST);
        for own in [[0, 0, 0], [50, 50, 50], [7, 5, 3]] {
            let job = priced(instead(marked(case)), own).job();
            add_bytes(list, job, LONGEST);
        }
    }
    // Pages of two sets, with N at each place among them.
    for place in 0..4 {
        let mut job = marked('a');
        let behind_terms = job.commands.len() - 3;
        let mut pages = vec![page(0, 2), page(23, 2), page(42, 2)];
        pages.insert(place, vec![b'N']);
        job.commands.splice(behind_terms..behind_terms + 1, pages);
        add_bytes(list, job.job(), LONGEST);
        add_bytes(list, priced(job, [3, 2, 1]).job(), LONGEST);
    }
}

/// Jobs with N at every length, with every buffer length and byte.
fn of_sweeps(rng: &mut Rng, list: &mut Vec<Case>) {
    for job in [
        instead(marked('d')),
        instead(first_term_gone()),
        priced(amid(prime_gone()), [0, 1, 2]),
    ] {
        let job = job.job();
        list.extend(every_cut(&job, LONGEST));
        list.extend(every_byte(rng, &job));
    }
    list.extend(every_room(&instead(prime_gone()).job()));
    add_bytes(list, amid(seventh_term()).job(), LONGEST);
}

/// Jobs with N of the longest length and longer, and jobs of nothing but N: 2,978 answers of 11
/// bytes have room.
fn of_lengths(list: &mut Vec<Case>) {
    let head = || vec![prices([3, 2, 1]), vec![b'P'], vec![b'N']];
    for length in [LONGEST - 1, LONGEST, LONGEST + 1] {
        add_bytes(list, long_job(1, head(), length).job(), LONGEST);
        let mut job = spelled("I");
        job.resize(length, b'N');
        add_bytes(list, job, LONGEST);
    }
    for (count, room) in [
        (2_978, LONGEST),
        (2_979, LONGEST),
        (100, 1_100),
        (100, 1_101),
    ] {
        let job = [spelled("I"), vec![b'N'; count], b"E".to_vec()].concat();
        add_bytes(list, job, room);
    }
}
