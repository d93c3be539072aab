//! L at its places where covers do not fit, and what stands before and behind it; cut at every length,
//! with every buffer length and byte.

use super::{others, Commands, LimitTable};
use crate::format::COMMANDS;
use crate::generate::draft::{come, draft, go, page, ranged_page, row, term, Draft};
use crate::generate::purpose::{add, add_bytes, long_job};
use crate::generate::sweeps::{every_byte, every_cut, every_room};
use crate::generate::Case;
use crate::reference::LONGEST;
use crate::rng::Rng;

pub fn of_places(rng: &mut Rng, list: &mut Vec<Case>) {
    of_neighbours(list);
    of_sweeps(rng, list);
    of_free_parts(list);
    of_lengths(list);
}

/// Eight wanted vertices of four inputs, each by a term: their cover does not fit.
fn eight() -> Commands {
    let rows = (0..8).map(|v| row(v, 1, 0));
    let single = (0..8).map(|v| term(15, v, 1));
    rows.chain(single).collect()
}

/// One more term holds two of the vertices: of two covers one fits.
fn short(behind: Commands) -> Draft {
    draft(4, 1, [eight(), vec![term(14, 6, 1)], behind])
}

/// Each command right before and right behind an L, where covers fit and where none does.
fn of_neighbours(list: &mut Vec<Case>) {
    for command in COMMANDS {
        for gone in [vec![], vec![go(8)]] {
            for room in [3, 64, LONGEST] {
                let behind = vec![page(0, 9), command.sample(), page(0, 9)];
                add(list, &short([gone.clone(), behind].concat()), room);
                let before = vec![command.sample(), page(0, 0)];
                add(list, &short([gone.clone(), before].concat()), room);
            }
        }
    }
}

fn of_sweeps(rng: &mut Rng, list: &mut Vec<Case>) {
    let mixed = vec![
        page(0, 1),
        b"C".to_vec(),
        page(0, 2),
        ranged_page(0, 9),
        come(12, 0, 1),
        page(0, 3),
        b"N".to_vec(),
        go(8),
        page(0, 9),
        go(8),
        page(0, 9),
    ];
    let job = short(mixed).job();
    list.extend(every_cut(&job, LONGEST));
    list.extend(every_room(&job));
    list.extend(every_byte(rng, &job));
}

/// The part's pages are shorter: what stands behind them has room where the engine's would not.
fn of_free_parts(list: &mut Vec<Case>) {
    let mut limited = LimitTable::new(1);
    (0..6).for_each(|_| limited.needed(1, 1));
    limited.pieces(2, 1, 0);
    for behind in [others(), vec![page(0, 9)], vec![b"C".to_vec()], vec![]] {
        let asked = [vec![page(0, 9)], behind].concat();
        list.extend(every_room(&limited.job(asked).job()));
    }
}

/// The longest jobs and answers.
fn of_lengths(list: &mut Vec<Case>) {
    for length in [LONGEST - 1, LONGEST, LONGEST + 1] {
        for last in [vec![], vec![term(14, 6, 1)]] {
            let head = [eight(), last].concat();
            add_bytes(list, long_job(4, head, length).job(), LONGEST);
        }
    }
    // 2,978 pages of one set and 11 bytes, three of none, and E's answer; the engine's have two sets.
    let pages = vec![page(0, 2); 2_978];
    let job = short([pages, vec![page(1 << 60, 1); 3]].concat()).job();
    for room in [LONGEST - 1, LONGEST, LONGEST + 1] {
        add_bytes(list, job.clone(), room);
    }
}
