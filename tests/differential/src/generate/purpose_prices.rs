//! Cases made on purpose for W: its prices and their border, its places, its operands cut off. What
//! the prices make of the cheapest is in `purpose_prices/costs.rs`.

mod costs;

use super::draft::prices;
use super::purpose::{add_bytes, long_job, primes, spelled};
use super::sweeps::{every_byte, every_cut, every_room};
use super::Case;
use crate::format::{find, COMMANDS};
use crate::reference::LONGEST;
use crate::rng::Rng;
use crate::selftest::{bytes, marked, priced};

pub fn prices_on_purpose(rng: &mut Rng) -> Vec<Case> {
    let mut list = Vec::new();
    of_every_price(&mut list);
    of_their_places(&mut list);
    of_bad_places(&mut list);
    of_cuts(&mut list);
    of_sweeps(rng, &mut list);
    of_lengths(&mut list);
    costs::of_costs(rng, &mut list);
    list
}

/// Each byte for each price, beside good ones and beside bad ones; W stands right before E.
fn of_every_price(list: &mut Vec<Case>) {
    for price in 0..=255 {
        for place in 0..3 {
            let mut alone = [0; 3];
            alone[place] = price;
            add_bytes(list, job_of(alone), 1);
        }
    }
    for price in [0, 1, 49, 50, 51, 52, 127, 128, 255] {
        for others in [1, 50, 51, 255] {
            for place in 0..3 {
                let mut beside = [others; 3];
                beside[place] = price;
                add_bytes(list, job_of(beside), 0);
                add_bytes(list, job_of(beside), 1);
            }
        }
    }
}

fn job_of(list: [u8; 3]) -> Vec<u8> {
    [&b"I\x01\x01"[..], &prices(list), b"E"].concat()
}

/// The longer ones of the places. The row's one wanted cell is held by the sample term.
fn of_their_places(list: &mut Vec<Case>) {
    for jobs in [
        // Before I, right behind it, twice, and I again.
        "W WE WI WIE WIWE IW IWE IWWE IWWWE IWIE IWIWE IWRTLCWE",
        // Behind each command before which it stands, alone and where it came before.
        "IRWE IBWE IRTWE IRAWE IPWE ILWE ICWE INWE IRPWE IRTLWE IRTCWE IRPLWE IRPCWE",
        "IWRWE IWBWE IWRTWE IWRAWE IWPWE IWLWE IWCWE IWRPWE IWRTLWE IWRTCWE IWRPLCWE",
        // The candidate has gone, and D with nothing standing.
        "IRTDWE IRADWE IRPDWE IWRTDWE IWRADWE IWRPDWE IDWE IWDE IWDWE IWRTDDE",
        // What follows.
        "IWRE IWBE IWRTE IWRAE IWPE IWLE IWCE IWRTLCE IWRALCE IWRPLCE IWBRPCLE IWRBTLCE IWRBPLCE",
        "IWRTADLCE IWRADTLCE IWRPDALCE IWRLALE IWRALCDACE IWRTLATE IWRAPE IWRTRE IWRPRE IWLRE",
        // Behind E.
        "IEW IEWE IWEW IWEWE IWRTLCEW",
    ] {
        for job in jobs.split(' ') {
            for room in [0, 1, 64] {
                add_bytes(list, spelled(job), room);
            }
        }
    }
}

/// A price above 50 where W may not stand: 4 comes first.
fn of_bad_places(list: &mut Vec<Case>) {
    for head in [
        "", "IW", "IR", "IB", "IRT", "IRA", "IP", "IL", "IC", "IN", "IRPDA",
    ] {
        for bad in [[51, 0, 0], [0, 51, 0], [0, 0, 51], [255; 3], [50; 3]] {
            let job = [spelled(head), prices(bad), b"E".to_vec()].concat();
            add_bytes(list, job, LONGEST);
        }
    }
}

/// W at every length, where it would be good, where 16 waits behind 5, and where 4 comes first.
fn of_cuts(list: &mut Vec<Case>) {
    for head in [
        "", "I", "IW", "IR", "IB", "IRT", "IRA", "IRP", "IRTL", "IRTC",
    ] {
        let head = spelled(head);
        for list_of in [
            [1, 1, 0],
            [50; 3],
            [51, 1, 1],
            [1, 51, 1],
            [1, 1, 51],
            [255; 3],
        ] {
            for case in every_cut(&[&head, &prices(list_of)[..], b"E"].concat(), 64) {
                if case.job.len() > head.len() {
                    list.push(case);
                }
            }
        }
    }
    // Each command behind a W that lacks its last byte is read as that.
    let short = [spelled("I"), b"W\x01\x01".to_vec()].concat();
    for command in COMMANDS {
        add_bytes(list, [short.clone(), command.sample()].concat(), 64);
    }
}

/// Jobs with W at every length, with every buffer length and byte.
fn of_sweeps(rng: &mut Rng, list: &mut Vec<Case>) {
    for job in [
        priced(marked('d'), [2, 1, 0]).job(),
        priced(marked('c'), [0, 0, 0]).job(),
        [spelled("IWRB"), bytes("41 0f 00 01 43 44 00 45")].concat(),
    ] {
        list.extend(every_cut(&job, LONGEST));
        list.extend(every_room(&job));
        list.extend(every_byte(rng, &job));
    }
}

/// Jobs with W of the longest length and longer, and jobs of nothing but W.
fn of_lengths(list: &mut Vec<Case>) {
    let head = || [vec![prices([3, 2, 1])], primes()].concat();
    for length in [LONGEST - 1, LONGEST, LONGEST + 1] {
        add_bytes(list, long_job(1, head(), length).job(), LONGEST);
        let again = find(b'W').expect("a command").sample();
        let mut job = [spelled("I"), again.repeat(length / 4 + 1)].concat();
        job.truncate(length);
        add_bytes(list, job, 9);
    }
    add_bytes(list, long_job(1, head(), LONGEST).job(), LONGEST + 1);
}
