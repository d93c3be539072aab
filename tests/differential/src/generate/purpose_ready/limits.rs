//! What 18 speaks of, one by one and beside other numbers, and the off cells of 10.

use super::{f, Commands};
use crate::generate::bytes::full;
use crate::generate::draft::{draft, row, term};
use crate::generate::purpose::{add, all_wanted};
use crate::generate::Case;
use crate::selftest::ask_all;

pub fn of_limits(list: &mut Vec<Case>) {
    of_every_vertex(list);
    of_every_output(list);
    of_weights(list);
    of_bad_ones(list);
    of_two_numbers(list);
    of_off_cells(list);
}

/// A wanted vertex and a block of it alone, for every byte and number of inputs: from 2^n on it is
/// refused. Over eight inputs a block of another vertex has an off cell.
fn of_every_vertex(list: &mut Vec<Case>) {
    for n in 1..=8u8 {
        for v in 0..=255u8 {
            let rows = vec![row(v & full(n.into()), 1, 0)];
            let block = vec![f(1, &[v.into()], v.into())];
            add(list, &draft(n, 1, [rows, block, ask_all()]), 64);
        }
    }
    let others = [1, 2, 4, 7, 8, 16, 31, 128, 248, 255];
    for v in 0..=255usize {
        for other in [others[v % 10], others[v / 10 % 10]] {
            let block = vec![f(1, &[v ^ other], 1)];
            add(list, &draft(8, 1, [vec![row(v as u8, 1, 0)], block]), 1);
        }
    }
}

/// Every byte of outputs. Output 0 is wanted, the others are free.
fn of_every_output(list: &mut Vec<Case>) {
    for m in [1, 2, 3, 7, 8] {
        for outputs in 0..=255 {
            let rows = vec![row(0, 1, full(m) - 1)];
            let block = vec![f(outputs, &[0], 1)];
            add(list, &draft(1, m as u8, [rows, block, ask_all()]), 64);
        }
    }
}

/// Around each border of a byte and of 850, and far above it.
fn of_weights(list: &mut Vec<Case>) {
    let near = [0, 256, 512, 768, 850, 1_024, 1_280, 21_251, 32_768, 65_536];
    for border in near {
        for weight in border - 12..border + 12 {
            let Ok(weight) = u16::try_from(weight) else {
                continue;
            };
            let block = vec![f(1, &[0], weight)];
            let job = draft(1, 1, [vec![row(0, 1, 0)], block, ask_all()]);
            add(list, &job, 64);
        }
    }
}

/// Blocks that meet 18, each by one operand; the vertices have no off cell but for that.
fn bad_ones(n: usize, m: usize) -> Commands {
    let mut list = vec![f(0, &[0], 1), f(0, &[], 0)];
    if m < 8 {
        let high = [1 << m, 1 << m | 1, 0x80, 0x81, 0xff, !full(m)];
        list.extend(high.map(|outputs| f(outputs, &[0], 1)));
        list.push(f(1 << m, &[], 1));
    }
    if n < 8 {
        for v in [1 << n, (1 << n) + 1, 2 << n, 254, 255] {
            list.extend([f(1, &[v & 255], 1), f(1, &[0, v & 255], 1)]);
        }
    }
    // 1,025 and 21,251 have a low byte of 1 and 3; the latter is 850 with its bytes exchanged.
    let heavy = [851, 852, 1_024, 1_025, 1_874, 21_251, 32_768, 65_535];
    list.extend(heavy.map(|weight| f(1, &[0], weight)));
    list.push(f(1, &[], 851));
    list
}

/// Each of them alone, behind candidates, and before what would be accepted. Vertices from 2^n on
/// that are 0 to 255 cut to a byte are good ones there.
fn of_bad_ones(list: &mut Vec<Case>) {
    for (n, m) in [
        (1, 1),
        (2, 2),
        (3, 1),
        (3, 7),
        (4, 3),
        (6, 4),
        (7, 8),
        (8, 7),
        (8, 8),
    ] {
        let good = || f(1, &[0], 1);
        for bad in bad_ones(n.into(), m.into()) {
            for before in [vec![], vec![term(full(n.into()), 0, 1)], vec![good()]] {
                let behind = [vec![bad.clone(), good()], ask_all()].concat();
                let job = draft(n, m, [vec![row(0, 1, 0)], before, behind]);
                add(list, &job, 64);
            }
        }
    }
}

/// Two inputs and two outputs; cell (0, 0) is wanted, (0, 1) free, and all others are off.
fn off_ones() -> Commands {
    vec![
        f(1, &[1], 1),
        f(1, &[0, 3], 1),
        f(3, &[0, 1, 2, 3], 850),
        f(2, &[2], 0),
    ]
}

/// 18 with an off cell, and each of these where 64 stand.
fn of_two_numbers(list: &mut Vec<Case>) {
    let both = [
        f(4, &[1], 1),
        f(5, &[0, 1], 1),
        f(1, &[1, 4], 1),
        f(1, &[3, 255], 1),
        f(1, &[1], 851),
        f(0, &[1], 1),
        f(0x80, &[255], 65_535),
    ];
    let alone = [f(1, &[0], 1), f(3, &[0], 850), f(2, &[], 0)];
    let bad = bad_ones(2, 2);
    let blocks: Commands = [&both[..], &alone, &bad, &off_ones()].concat();
    for block in blocks {
        for count in [0, 1, 63, 64] {
            for standing in [term(3, 0, 1), f(1, &[0], 2)] {
                let parts = [
                    vec![row(0, 1, 2)],
                    vec![standing; count],
                    vec![block.clone()],
                ];
                add(list, &draft(2, 2, parts), 1);
            }
        }
    }
}

/// All that is not off, with each vertex more or less: off cells count at the block's outputs alone.
fn of_off_cells(list: &mut Vec<Case>) {
    let on_and_dc = [
        [1, 2],
        [0, 1],
        [2, 0],
        [0, 0],
        [3, 0],
        [0, 3],
        [2, 1],
        [1, 0],
    ];
    let rows = || {
        let pairs = (0..8).zip(on_and_dc);
        pairs
            .map(|(v, [on, dc])| row(v, on, dc))
            .collect::<Commands>()
    };
    for outputs in 1..=3u8 {
        let legal = |v: &usize| outputs & !(on_and_dc[*v][0] | on_and_dc[*v][1]) == 0;
        for turned in 0..9 {
            let has = |v: &usize| legal(v) != (*v == turned);
            let vertices: Vec<usize> = (0..8).filter(has).collect();
            let block = vec![f(outputs, &vertices, 4)];
            add(list, &draft(3, 2, [rows(), block, ask_all()]), 64);
        }
    }
    for off in [0, 7, 8, 127, 128, 248, 255usize] {
        let mut rows = all_wanted(8, 1);
        rows.remove(off);
        let all: Vec<usize> = (0..256).collect();
        let mut others = all.clone();
        others.remove(off);
        for vertices in [all, others] {
            let job = draft(8, 1, [rows.clone(), vec![f(1, &vertices, 850)], ask_all()]);
            add(list, &job, 64);
        }
    }
}
