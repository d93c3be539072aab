//! K9 on small tables, worked out by hand: the jobs in another order, the new numbers, and what both
//! jobs answer. Then that wrong renumberings and engines are seen (`order/wrong.rs`).

mod engines;
mod wrong;

use super::{answer_all, both_wanted, bytes, example_rows, terms, Checks, LONGEST, TERMS};
use crate::format::cut;
use crate::generate::{
    come, draft, every, exchanged, orders_on_purpose, page, ready, reversed, rotated, row, sorted,
    term, terms_of, Draft, Order, Ordered,
};
use crate::reference::{Block, Outcome};
use crate::reordered::{by_engine, by_reference, may_refuse, Held, Kind, Pair};
use crate::rng::Rng;
use engines::{call, right};

type Commands = Vec<Vec<u8>>;

/// The irredundant covers at a query, and cost and set of the cheapest.
type Asked = (&'static [u64], u16, u64);

/// A job, an order, and what comes of it.
struct ByHand {
    name: &'static str,
    jobs: [Draft; 2],
    order: Order,
    numbers: &'static [usize],
    /// At each place where all is asked, in both jobs.
    answers: Vec<[Asked; 2]>,
    /// How many C have another set there.
    other_sets: usize,
}

pub fn run(checks: &mut Checks, rng: &mut Rng) {
    orders(checks);
    let by_hand = by_hand();
    for case in &by_hand {
        as_worked_out(checks, case);
    }
    refusals(checks);
    let on_purpose = orders_on_purpose(rng);
    moved_back(checks, &on_purpose);
    wrong::run(checks, &by_hand, &on_purpose);
}

/// Each order once, and the named ones by hand.
fn orders(checks: &mut Checks) {
    let counts = [1, 1, 2, 6, 24, 120];
    for (terms, count) in counts.into_iter().enumerate() {
        let mut all = every(terms);
        all.sort_unstable();
        all.dedup();
        let places = |order: &Order| {
            let mut places = order.clone();
            places.sort_unstable();
            places.into_iter().eq(0..terms)
        };
        let right = all.len() == count && all.iter().all(places);
        checks.check("every order once", right);
    }
    checks.check("reversed", reversed(4) == [3, 2, 1, 0]);
    checks.check("rotated", rotated(4, 1) == [1, 2, 3, 0]);
    checks.check("exchanged", exchanged(4, 1, 3) == [0, 3, 2, 1]);
    // The first of the equal ones stays before the second.
    let job = draft(2, 2, [terms(&[[2, 0, 1], [1, 1, 3], [2, 0, 1], [1, 0, 3]])]).job();
    checks.check("sorted", sorted(&terms_of(&job)) == [2, 1, 3, 0]);
}

/// A page with all sets, the cheapest and N.
fn ask() -> Commands {
    vec![page(0, 255), b"C".to_vec(), b"N".to_vec()]
}

/// The wanted cell of two inputs is held by terms of 1, 1 and 2 literals.
fn one_wanted(list: &[[u8; 3]]) -> Draft {
    let rows = vec![row(0, 1, 0), row(1, 0, 1), row(2, 0, 1)];
    draft(2, 1, [rows, terms(list), ask()])
}

/// Of two inputs vertices 0, 1 and 2 are wanted. Two terms by T have 0 and one other, a term by A
/// between them has 1 alone, and behind the first queries one by A has 2 alone.
fn around_an_a(first: [u8; 3], second: [u8; 3]) -> Draft {
    around(come(3, 1, 1), first, second)
}

/// The same with a block of vertex 1 for nothing.
fn around_an_f(first: [u8; 3], second: [u8; 3]) -> Draft {
    around(ready(&Block::new(1, [1], 0)), first, second)
}

fn around(middle: Vec<u8>, first: [u8; 3], second: [u8; 3]) -> Draft {
    let rows = vec![row(0, 1, 0), row(1, 1, 0), row(2, 1, 0)];
    let by_term = |t: [u8; 3]| term(t[0], t[1], t[2]);
    let candidates = vec![by_term(first), middle, by_term(second)];
    draft(2, 1, [rows, candidates, ask(), vec![come(3, 2, 1)], ask()])
}

fn by_hand() -> Vec<ByHand> {
    let example = |list: &[[u8; 3]]| draft(2, 2, [example_rows(), terms(list), ask()]);
    let line = |list: &[[u8; 3]]| draft(1, 1, [both_wanted(), terms(list), ask()]);
    let [one, two, three, four, five, six] = TERMS;
    let in_order: Asked = (&[11, 22, 26, 41, 52, 56], 3, 41);
    let (low, high, both) = ([1, 0, 1], [1, 1, 1], [0, 0, 1]);
    vec![
        // Number i becomes 5 - i: 11 is 0, 1 and 3, which are 5, 4 and 2 now, or 52; 22 is 26 and 56
        // is 7. The cheapest, terms 1, 4 and 6, has 5, 2 and 0.
        ByHand {
            name: "the example reversed",
            jobs: [
                example(&TERMS),
                example(&[six, five, four, three, two, one]),
            ],
            order: reversed(6),
            numbers: &[5, 4, 3, 2, 1, 0],
            answers: vec![[in_order, (&[7, 11, 22, 26, 37, 52], 3, 37)]],
            other_sets: 0,
        },
        // Each number becomes the next one, 5 becomes 0: 11, 22, 26, 41, 52 and 56 are 22, 44, 52, 19,
        // 41 and 49.
        ByHand {
            name: "the example rotated",
            jobs: [
                example(&TERMS),
                example(&[six, one, two, three, four, five]),
            ],
            order: rotated(6, 1),
            numbers: &[1, 2, 3, 4, 5, 0],
            answers: vec![[in_order, (&[19, 22, 41, 44, 49, 52], 3, 19)]],
            other_sets: 0,
        },
        // Each term alone is a cover. Those with one literal cost 1: first that with care 1 has the
        // smaller number, then the other one.
        ByHand {
            name: "another cheapest among equals",
            jobs: [
                one_wanted(&[[1, 0, 1], [2, 0, 1], [3, 0, 1]]),
                one_wanted(&[[3, 0, 1], [2, 0, 1], [1, 0, 1]]),
            ],
            order: reversed(3),
            numbers: &[2, 1, 0],
            answers: vec![[(&[1, 2, 4], 1, 1), (&[1, 2, 4], 1, 2)]],
            other_sets: 1,
        },
        // The same bytes, but the first of both is the second now.
        ByHand {
            name: "two equal terms exchanged",
            jobs: [line(&[both, both]), line(&[both, both])],
            order: vec![1, 0],
            numbers: &[1, 0],
            answers: vec![[(&[1, 2], 1, 1), (&[1, 2], 1, 1)]],
            other_sets: 1,
        },
        // Vertex 0 has two equal holders and vertex 1 has one.
        ByHand {
            name: "equal terms rotated",
            jobs: [line(&[low, low, high]), line(&[high, low, low])],
            order: rotated(3, 1),
            numbers: &[1, 2, 0],
            answers: vec![[(&[5, 6], 2, 5), (&[3, 5], 2, 3)]],
            other_sets: 0,
        },
        // Before the last A: a and b, or b and the first A's. With it: a and the last A's, too. With 1,
        // 4 and 8 for a, b and the last one that is 5, 6 and 9; then a is 4 and b is 1.
        ByHand {
            name: "an A between two T",
            jobs: [
                around_an_a([2, 0, 1], [1, 0, 1]),
                around_an_a([1, 0, 1], [2, 0, 1]),
            ],
            order: reversed(2),
            numbers: &[2, 1, 0, 3],
            answers: vec![
                [(&[5, 6], 2, 5), (&[3, 5], 2, 5)],
                [(&[5, 6, 9], 2, 5), (&[3, 5, 12], 2, 5)],
            ],
            other_sets: 0,
        },
        // The block keeps its place and number, and is the cheaper beside b.
        ByHand {
            name: "an F between two T",
            jobs: [
                around_an_f([2, 0, 1], [1, 0, 1]),
                around_an_f([1, 0, 1], [2, 0, 1]),
            ],
            order: reversed(2),
            numbers: &[2, 1, 0, 3],
            answers: vec![
                [(&[5, 6], 1, 6), (&[3, 5], 1, 3)],
                [(&[5, 6, 9], 1, 6), (&[3, 5, 12], 1, 3)],
            ],
            other_sets: 0,
        },
    ]
}

/// The answers of one of both jobs.
fn written(case: &ByHand, which: usize) -> Vec<u8> {
    let mut all = Vec::new();
    for answers in &case.answers {
        let (sets, cost, cheapest) = answers[which];
        all.extend(answer_all(sets, cost, cheapest));
        all.push(0x6e);
        all.extend((sets.len() as u16).to_le_bytes());
        sets.iter().for_each(|set| all.extend(set.to_le_bytes()));
    }
    all.push(0x65);
    all
}

fn as_worked_out(checks: &mut Checks, case: &ByHand) {
    let name = case.name;
    let [first, second] = [0, 1].map(|i| case.jobs[i].job());
    checks.accepts(name, &first, &written(case, 0));
    checks.accepts(name, &second, &written(case, 1));
    let pair = Pair::new(&first, &case.order);
    checks.check(&format!("job of {name}"), pair.jobs[1] == second);
    checks.check(&format!("numbers of {name}"), pair.numbers == case.numbers);
    checks.check(&format!("sound: {name}"), pair.is_sound());
    for answers in &case.answers {
        let same = pair.same(answers[0].0, answers[1].0);
        checks.check(&format!("lists of {name}"), same);
    }
    let places = case.answers.len();
    let mut held = Held::default();
    let listed = by_reference(&pair, &mut held).is_ok() && held.times(Kind::Listed) == places;
    checks.check(&format!("reference: {name}"), listed);
    let passed = by_engine(
        &|case, before| call(right, case, before),
        &pair,
        LONGEST,
        &mut held,
    );
    let kinds = [Kind::FromZero, Kind::Cheapest, Kind::Products, Kind::Paged];
    let each = kinds.iter().all(|&kind| held.times(kind) == places);
    let other_sets = held.times(Kind::OtherSet) == case.other_sets;
    checks.check(
        &format!("engine: {name}"),
        passed.is_ok() && each && other_sets,
    );
}

/// Vertex 0 has one holder and vertex 1 two. From 4 on one set stands where it is the first, 5, and
/// two where it is the last, 5 and 6: 11 or 19 bytes, and E's.
fn refusals(checks: &mut Checks) {
    let list = terms(&[[1, 0, 1], [1, 1, 1], [1, 1, 1]]);
    let job = draft(1, 1, [both_wanted(), list, vec![page(4, 9)]]).job();
    let pair = Pair::new(&job, &reversed(3));
    checks.refuses("14 at L in another order", &pair.jobs[1], 12, (14, 23, 0));
    checks.refuses("14 at E in another order", &pair.jobs[1], 19, (14, 33, 19));
    for (room, due) in [(12, [1, 1]), (19, [1, 1]), (20, [0, 1])] {
        let mut held = Held::default();
        let passed = by_engine(
            &|case, before| call(right, case, before),
            &pair,
            room,
            &mut held,
        );
        let seen = [Kind::NoRoom, Kind::Pairs].map(|kind| held.times(kind));
        checks.check("14 in another order", passed.is_ok() && seen == due);
    }
    let refused = |number: u64, offset: usize| Outcome {
        number,
        offset,
        written: 0,
        buffer: Vec::new(),
    };
    for number in 1..=18 {
        let may = may_refuse(&job, &refused(number, 23));
        checks.check("what may come in another order", may == (number == 14));
    }
    // From 0 on a page is as long in any order. A page from 4 on is not read before its offset.
    let from_zero = draft(
        1,
        1,
        [both_wanted(), terms(&[[0, 0, 1]; 3]), vec![page(0, 1)]],
    )
    .job();
    checks.check("14 from 0 on", !may_refuse(&from_zero, &refused(14, 23)));
    checks.check("14 before the page", !may_refuse(&job, &refused(14, 19)));
    let at_c = [&job[..23], &bytes("43")[..], &job[23..]].concat();
    checks.check(
        "14 at C before the page",
        !may_refuse(&at_c, &refused(14, 23)),
    );
    checks.check(
        "14 at the page behind C",
        may_refuse(&at_c, &refused(14, 24)),
    );
}

/// The jobs made on purpose are sound, and the way back leads to the first job.
fn moved_back(checks: &mut Checks, on_purpose: &[Ordered]) {
    for Ordered { case, orders } in on_purpose {
        checks.check(
            "no D",
            cut(&case.job).is_some_and(|all| all.iter().all(|c| c[0] != b'D')),
        );
        for order in orders {
            let pair = Pair::new(&case.job, order);
            let mut back = vec![0; order.len()];
            for (old, &new) in order.iter().enumerate() {
                back[new] = old;
            }
            let again = Pair::new(&pair.jobs[1], &back);
            let same = again.jobs[1] == case.job && again.numbers == pair.back().numbers;
            checks.check("another order and back", same && pair.is_sound());
        }
    }
}
