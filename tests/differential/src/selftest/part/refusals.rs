//! What L meets at the part: 5, 12, 20, then 14.

use super::{eight, listed, Checks};
use crate::generate::{come, draft, go, page, ranged_page, row, term};
use crate::reference::{Layer, LONGEST};

pub fn run(checks: &mut Checks) {
    any_operands(checks);
    orders(checks);
    room(checks);
    at_the_engine(checks);
}

/// Eight vertices by a term each: none fits.
fn none(behind: Vec<Vec<u8>>) -> Vec<u8> {
    eight([vec![go(8)], behind].concat()).job()
}

/// The bytes before what is asked.
const HEAD: usize = 3 + 8 * 4 + 9 * 4 + 2;

/// 20 whatever start and count are.
fn any_operands(checks: &mut Checks) {
    for start in [0, 1, 254, 255, 256, 1 << 63, u64::MAX] {
        for count in [0, 1, 2, 255] {
            let name = format!("20 from {start} on, {count}");
            let job = none(vec![page(start, count)]);
            for room in [0, 2, 3, 64] {
                checks.refuses_at(Layer::Part, &name, &job, room, (20, HEAD, 0));
            }
        }
    }
}

fn orders(checks: &mut Checks) {
    let part = Layer::Part;
    let whole = none(vec![page(0, 9)]);
    for cut in 1..10 {
        let job = &whole[..HEAD + cut];
        checks.refuses_at(part, "5 before 20", job, 0, (5, HEAD, 0));
    }
    // A ninth vertex that none holds.
    let rows = (0..9).map(|v| row(v, 1, 0)).collect();
    let single = (0..8).map(|v| term(15, v, 1)).collect();
    let unheld = draft(4, 1, [rows, single, vec![page(0, 9)]]).job();
    let at = 3 + 9 * 4 + 8 * 4;
    for room in [0, 64] {
        checks.refuses_at(part, "12 before 20", &unheld, room, (12, at, 0));
    }
    checks.refuses_at(part, "5 before 12", &unheld[..at + 9], 0, (5, at, 0));
    checks.refuses_at(part, "4 before 20", &page(0, 9), 0, (4, 0, 0));
    // An A or a V stands before it; the job ends there.
    let job = none(vec![come(7, 0, 1), ranged_page(0, 0), page(0, 0), go(0)]);
    let met = (20, HEAD + 4 + 10, 3);
    checks.refuses_at(part, "20 behind A and V", &job, LONGEST, met);
}

/// 14 goes by the narrower page, of one set: the engine's has two.
fn room(checks: &mut Checks) {
    let job = eight(vec![page(0, 9)]).job();
    let at = HEAD - 2;
    for room in 0..11 {
        checks.refuses_at(Layer::Part, "no room for L", &job, room, (14, at, 0));
        checks.refuses("no room for L", &job, room, (14, at, 0));
    }
    let behind = (14, at + 10, 11);
    checks.refuses_at(Layer::Part, "no room for E", &job, 11, behind);
    checks.refuses("no room for two sets", &job, 18, (14, at, 0));
    let page_of_none = eight(vec![page(400, 9)]).job();
    for room in 0..3 {
        let name = "no room for a page without sets";
        checks.refuses_at(Layer::Part, name, &page_of_none, room, (14, at, 0));
    }
}

/// The engine has no 20.
fn at_the_engine(checks: &mut Checks) {
    let due = [listed(&[255], 0), vec![0x65]].concat();
    checks.accepts("none fits, at the engine", &none(vec![page(0, 9)]), &due);
    let due = [listed(&[], 0), vec![0x65]].concat();
    let job = none(vec![page(256, 0)]);
    checks.accepts("none fits, above the list", &job, &due);
}
