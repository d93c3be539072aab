//! Wrong renumberings, jobs that differ in more than the order, and engines that go by the order:
//! each is seen.

use super::engines::{call, right, Mistake, MISTAKES};
use super::{ByHand, Checks, Kind, LONGEST};
use crate::format::cut;
use crate::generate::{Case, Ordered};
use crate::reference::{self, Outcome};
use crate::reordered::{answers, by_engine, by_reference, pages, Held, Pair};

/// More candidates are too many for the engines here.
const FEW: usize = 8;
/// As many pairs made on purpose are looked at.
const PAIRS: usize = 700;

/// What is made of a right pair; None where that would be no other pair.
type Spoil = fn(&Pair) -> Option<Pair>;

const SPOILT: [(&str, &str, Spoil); 6] = [
    (
        "numbers the wrong way round",
        "the example rotated",
        inverse,
    ),
    (
        "the first equal term looked up",
        "equal terms rotated",
        looked_up,
    ),
    ("an A that moves too", "an A between two T", with_a_moved),
    ("an F that moves too", "an F between two T", with_f_moved),
    (
        "an output less on the way",
        "the example rotated",
        with_less,
    ),
    ("numbers that stay", "the example reversed", unmoved),
];

pub fn run(checks: &mut Checks, by_hand: &[ByHand], on_purpose: &[Ordered]) {
    let of_hand = |case: &ByHand| Pair::new(&case.jobs[0].job(), &case.order);
    let mut pairs: Vec<Pair> = by_hand.iter().map(of_hand).collect();
    for (name, known, spoil) in SPOILT {
        let place = by_hand.iter().position(|case| case.name == known);
        let pair = place.and_then(|i| spoil(&pairs[i]));
        let seen = pair.is_some_and(|pair| ways(&pair) == [true; 4]);
        checks.check(&format!("not seen in {known}: {name}"), seen);
    }
    pairs.extend(small(on_purpose));
    for (name, _, spoil) in SPOILT {
        spoilt(checks, name, &pairs, spoil);
    }
    let passes = pairs.iter().all(|pair| passes(right, pair));
    checks.check("the right engine in another order", passes);
    for (name, mistake) in MISTAKES {
        let seen = pairs.iter().any(|pair| !passes_at_all(mistake, pair));
        checks.check(&format!("not seen in another order: {name}"), seen);
    }
}

/// Those with few candidates, from all over the list.
fn small(on_purpose: &[Ordered]) -> Vec<Pair> {
    let mut list = Vec::new();
    for Ordered { case, orders } in on_purpose {
        let commands = cut(&case.job).expect("a sound job");
        let candidates = commands.iter().filter(|c| b"TAF".contains(&c[0]));
        if candidates.count() <= FEW {
            let pairs = orders.iter().map(|order| Pair::new(&case.job, order));
            list.extend(pairs);
        }
    }
    let stride = list.len().div_ceil(PAIRS).max(1);
    list.into_iter().step_by(stride).collect()
}

/// Whether a pair is seen to be wrong by its commands, by the reference's lists, by the answers and
/// by the pages of the right engine.
fn ways(pair: &Pair) -> [bool; 4] {
    let run = |i: usize| reference::run(&pair.jobs[i], &[0; LONGEST]).expect("small enough");
    let outcomes: [Outcome; 2] = [run(0), run(1)];
    let both = [&outcomes[0], &outcomes[1]];
    let mut held = Held::default();
    let engine = |case: &Case, before: &[u8]| call(right, case, before);
    [
        !pair.is_sound(),
        by_reference(pair, &mut held).is_err(),
        answers::compare(pair, both, &mut held).is_err(),
        pages::compare(&engine, pair, both, &mut held).is_err(),
    ]
}

/// Each is seen by its commands, and often by each of the other ways.
fn spoilt(checks: &mut Checks, name: &str, pairs: &[Pair], spoil: Spoil) {
    let mut seen = [0; 4];
    let mut count = 0;
    for pair in pairs.iter().filter_map(spoil) {
        count += 1;
        for (times, way) in seen.iter_mut().zip(ways(&pair)) {
            *times += usize::from(way);
        }
    }
    checks.check(&format!("often enough: {name}"), count >= 10);
    checks.check(
        &format!("not seen by its commands: {name}"),
        seen[0] == count,
    );
    let others = seen[1..].iter().all(|&times| times >= 5);
    checks.check(&format!("not seen by each way: {name}"), others);
}

fn with_numbers(pair: &Pair, numbers: Vec<usize>) -> Option<Pair> {
    let wrong = Pair {
        jobs: pair.jobs.clone(),
        numbers,
    };
    // Equal ones may change places: that is right, too.
    (!wrong.is_sound()).then_some(wrong)
}

fn inverse(pair: &Pair) -> Option<Pair> {
    with_numbers(pair, pair.back().numbers)
}

fn unmoved(pair: &Pair) -> Option<Pair> {
    with_numbers(pair, (0..pair.numbers.len()).collect())
}

fn candidates(job: &[u8]) -> Vec<&[u8]> {
    let mut commands = cut(job).expect("a sound job");
    commands.retain(|command| b"TAF".contains(&command[0]));
    commands
}

fn looked_up(pair: &Pair) -> Option<Pair> {
    let [old, new] = [0, 1].map(|i| candidates(&pair.jobs[i]));
    let first = |c: &&[u8]| new.iter().position(|other| other == c);
    let numbers: Option<Vec<usize>> = old.iter().map(first).collect();
    with_numbers(pair, numbers?)
}

/// The first A behind a T changes places with it.
fn with_a_moved(pair: &Pair) -> Option<Pair> {
    with_moved(pair, b'A')
}

/// The first F.
fn with_f_moved(pair: &Pair) -> Option<Pair> {
    with_moved(pair, b'F')
}

fn with_moved(pair: &Pair, byte: u8) -> Option<Pair> {
    let mut commands = cut(&pair.jobs[1]).expect("a sound job");
    let behind = |two: &[&[u8]]| [two[0][0], two[1][0]] == [b'T', byte];
    let place = commands.windows(2).position(behind)?;
    commands.swap(place, place + 1);
    Some(Pair {
        jobs: [pair.jobs[0].clone(), commands.concat()],
        numbers: pair.numbers.clone(),
    })
}

/// The last T that drives several outputs loses one. Where a wanted cell is let go the job is no
/// accepted one.
fn with_less(pair: &Pair) -> Option<Pair> {
    let mut at = 0;
    let mut spoilt = None;
    for command in cut(&pair.jobs[1]).expect("a sound job") {
        if command[0] == b'T' && command[3].count_ones() > 1 {
            let mut job = pair.jobs[1].clone();
            job[at + 3] &= job[at + 3] - 1;
            if reference::asked(&job).is_some() {
                spoilt = Some(job);
            }
        }
        at += command.len();
    }
    let jobs = [pair.jobs[0].clone(), spoilt?];
    let numbers = pair.numbers.clone();
    Some(Pair { jobs, numbers })
}

/// Whether an engine passes with both jobs, which are compared.
fn passes(mistake: Mistake, pair: &Pair) -> bool {
    let mut held = Held::default();
    let engine = |case: &Case, before: &[u8]| call(mistake, case, before);
    let passed = by_engine(&engine, pair, LONGEST, &mut held);
    passed.is_ok() && held.times(Kind::Pairs) == 1
}

/// Whether it is not told to be wrong.
fn passes_at_all(mistake: Mistake, pair: &Pair) -> bool {
    let engine = |case: &Case, before: &[u8]| call(mistake, case, before);
    by_engine(&engine, pair, LONGEST, &mut Held::default()).is_ok()
}
