//! The paper's example and marked cases, held against the reference before any engine is asked.

mod blocks;
mod changes;
mod cubes;
mod drawn;
mod order;
mod presence;
mod prices;
mod products;
mod ranges;
mod ready;
mod records;

pub use blocks::{mixed, ring};
pub use changes::{first_term_gone, prime_gone, seventh_term};
pub use prices::{dearest, priced};
pub use products::multiplied;

use crate::format::COMMANDS;
use crate::generate::{draft, page, row, term, Draft};
use crate::reference::{self, of_terms, Prices, Query, Term, LONGEST};
use crate::rng::Rng;

pub const EXAMPLE: &str = "49 02 02 52 00 00 01 52 01 01 02 52 02 03 00 52 03 02 00 54 01 00 01 \
    54 03 01 03 54 01 01 02 54 02 02 02 54 03 02 03 54 02 00 01 \
    4c 00 00 00 00 00 00 00 00 06 43 45";

const EXAMPLE_ANSWERS: &str = "6c06000b0000000000000016000000000000001a000000000000002900000000\
    00000034000000000000003800000000000000630300290000000000000065";

/// What a term with 0, 1, 2, .. 8 literals costs by K1, and at the usual prices of K6.
const COSTS: [u64; 9] = [1, 1, 3, 4, 5, 6, 7, 8, 9];

/// Terms 1 to 6 of document 003.
pub const TERMS: [[u8; 3]; 6] = [
    [1, 0, 1],
    [3, 1, 3],
    [1, 1, 2],
    [2, 2, 2],
    [3, 2, 3],
    [2, 0, 1],
];

pub fn bytes(hex: &str) -> Vec<u8> {
    let digits: Vec<u8> = hex.bytes().filter(|c| !c.is_ascii_whitespace()).collect();
    let pair =
        |two: &[u8]| u8::from_str_radix(std::str::from_utf8(two).expect("ascii"), 16).expect("hex");
    digits.chunks(2).map(pair).collect()
}

pub fn example_rows() -> Vec<Vec<u8>> {
    vec![row(0, 0, 1), row(1, 1, 2), row(2, 3, 0), row(3, 2, 0)]
}

/// The table as crawled: both free cells are wanted.
fn crawled_rows() -> Vec<Vec<u8>> {
    vec![row(0, 1, 0), row(1, 3, 0), row(2, 3, 0), row(3, 2, 0)]
}

fn terms(list: &[[u8; 3]]) -> Vec<Vec<u8>> {
    list.iter().map(|t| term(t[0], t[1], t[2])).collect()
}

fn both_wanted() -> Vec<Vec<u8>> {
    vec![row(0, 1, 0), row(1, 1, 0)]
}

pub fn ask_all() -> Vec<Vec<u8>> {
    vec![page(0, 255), vec![b'C']]
}

/// The marked cases as jobs, in the paper's order; b is taken from a.
pub fn marked(case: char) -> Draft {
    let primes = || vec![vec![b'P']];
    let one = || terms(&[[0, 0, 1]]);
    match case {
        'a' => draft(2, 2, [example_rows(), terms(&TERMS), ask_all()]),
        'c' => draft(2, 2, [example_rows(), primes(), ask_all()]),
        'd' => draft(2, 2, [crawled_rows(), terms(&TERMS), ask_all()]),
        'e' => draft(1, 1, [vec![], vec![], ask_all()]),
        'f' => draft(1, 1, [both_wanted(), one(), ask_all()]),
        'g' => draft(
            1,
            1,
            [both_wanted(), terms(&[[0, 0, 1], [0, 0, 1]]), ask_all()],
        ),
        _ => draft(1, 1, [both_wanted(), vec![], ask_all()]),
    }
}

/// Odd parity: one row and, with P, one prime for each vertex with an odd number of ones.
pub fn odd_parity(n: u8) -> Draft {
    let odd = (0..1u16 << n).filter(|v| v.count_ones() % 2 == 1);
    draft(
        n,
        1,
        [
            odd.map(|v| row(v as u8, 1, 0)).collect(),
            vec![vec![b'P']],
            ask_all(),
        ],
    )
}

/// What a full page and the cheapest must answer.
fn answer_all(sets: &[u64], cost: u16, cheapest: u64) -> Vec<u8> {
    let mut all = vec![0x6c, sets.len() as u8, 0];
    sets.iter().for_each(|set| all.extend(set.to_le_bytes()));
    all.push(0x63);
    all.extend(cost.to_le_bytes());
    all.extend(cheapest.to_le_bytes());
    all
}

/// The same, and E's answer behind it.
fn answers(sets: &[u64], cost: u16, cheapest: u64) -> Vec<u8> {
    [answer_all(sets, cost, cheapest), vec![0x65]].concat()
}

/// P's answer in case c: terms 1, 3, 6, 4, 2 and 5.
fn example_primes() -> Vec<u8> {
    let by_number = [1, 3, 6, 4, 2, 5].map(|number: usize| TERMS[number - 1]);
    [vec![0x70, 6], by_number.concat()].concat()
}

/// Names what went wrong; empty when all is right.
pub struct Checks {
    pub passed: usize,
    pub wrong: Vec<String>,
}

impl Checks {
    fn check(&mut self, name: &str, right: bool) {
        if right {
            self.passed += 1;
        } else {
            self.wrong.push(name.to_string());
        }
    }

    /// The reference accepts the job and writes just these bytes.
    fn accepts(&mut self, name: &str, job: &[u8], expected: &[u8]) {
        let before = vec![0xa5; LONGEST];
        let out = reference::run(job, &before).expect("small enough");
        let right = out.number == 0 && out.offset == job.len() && out.written == expected.len();
        let kept = out.buffer[out.written..] == before[out.written..];
        self.check(
            name,
            right && kept && out.buffer[..out.written] == *expected,
        );
    }

    fn refuses(&mut self, name: &str, job: &[u8], room: usize, expected: (u64, usize, usize)) {
        let out = reference::run(job, &vec![0xa5; room]).expect("small enough");
        let kept = out.buffer[out.written..].iter().all(|&byte| byte == 0xa5);
        self.check(
            name,
            kept && (out.number, out.offset, out.written) == expected,
        );
    }
}

pub fn run(rng: &mut Rng) -> Checks {
    let mut checks = Checks {
        passed: 0,
        wrong: Vec::new(),
    };
    table_of_commands(&mut checks);
    costs_of_terms(&mut checks);
    example(&mut checks);
    marked_cases(&mut checks);
    marked_rivals(&mut checks);
    changes::run(&mut checks);
    blocks::run(&mut checks);
    parity(&mut checks);
    lengths(&mut checks);
    orders(&mut checks);
    presence::run(&mut checks);
    records::run(&mut checks);
    prices::run(&mut checks, rng);
    cubes::run(&mut checks, rng);
    products::run(&mut checks, rng);
    ready::run(&mut checks, rng);
    ranges::run(&mut checks, rng);
    order::run(&mut checks, rng);
    drawn::run(&mut checks, rng);
    checks
}

/// The good operands are as long as the operands, and no byte stands for two commands.
fn table_of_commands(checks: &mut Checks) {
    for (i, command) in COMMANDS.iter().enumerate() {
        let alone = COMMANDS[..i].iter().all(|other| other.byte != command.byte);
        checks.check("good operands", command.good.len() == command.width());
        checks.check("a byte of its own", alone);
    }
}

/// Only the number of literals counts: every care is tried.
fn costs_of_terms(checks: &mut Checks) {
    let with_care = |care| Term {
        care,
        value: 0,
        outputs: 1,
    };
    let cost = |care| Prices::USUAL.cost(&with_care(care));
    let right = |care: u8| cost(care) == COSTS[care.count_ones() as usize];
    checks.check("costs of terms", (0..=255).all(right));
}

fn example(checks: &mut Checks) {
    let job = bytes(EXAMPLE);
    let expected = bytes(EXAMPLE_ANSWERS);
    checks.check("example lengths", job.len() == 55 && expected.len() == 63);
    checks.accepts("example", &job, &expected);
    let out = reference::run(&job, &vec![0; LONGEST]).expect("small enough");
    checks.check("example packed", out.packed() == 55 * 65_536 + 63);
}

fn marked_cases(checks: &mut Checks) {
    let a = [11, 22, 26, 41, 52, 56];
    checks.accepts("case a", &marked('a').job(), &answers(&a, 3, 41));
    let list: Vec<Term> = TERMS
        .iter()
        .map(|t| Term {
            care: t[0],
            value: t[1],
            outputs: t[2],
        })
        .collect();
    let list = of_terms(&list);
    let cost = |&set: &u64| reference::cost(Prices::USUAL, &list, set);
    let costs: Vec<u64> = a.iter().map(cost).collect();
    checks.check("case b", costs == [5, 7, 7, 3, 5, 5]);
    let c = answers(&[13, 25, 38, 44, 50, 56], 3, 13);
    let c = [example_primes(), c].concat();
    checks.accepts("case c", &marked('c').job(), &c);
    checks.accepts(
        "case d",
        &marked('d').job(),
        &answers(&[11, 23, 45, 52, 58], 4, 45),
    );
    checks.accepts("case e", &marked('e').job(), &answers(&[0], 0, 0));
    checks.accepts("case f", &marked('f').job(), &answers(&[1], 1, 1));
    checks.accepts("case g", &marked('g').job(), &answers(&[1, 2], 1, 1));
    checks.refuses("case h", &marked('h').job(), LONGEST, (12, 11, 0));
}

/// The candidates of these cases are the primes, by P or by T, so no list of legal terms costs
/// less. Without its first term case a has other candidates.
fn marked_rivals(checks: &mut Checks) {
    for (case, cost) in [('a', 3), ('c', 3), ('d', 4), ('e', 0), ('f', 1), ('g', 1)] {
        let right = rivals(&marked(case).job()) == [Some(cost); 2];
        checks.check(&format!("rival of case {case}"), right);
    }
    let without = draft(2, 2, [example_rows(), terms(&TERMS[1..]), ask_all()]);
    let none = rivals(&without.job()) == [None; 2];
    checks.check("no rival without the primes", none);
}

/// The rival's least cost at each query of a sound job, None where he is not met.
fn rivals(job: &[u8]) -> Vec<Option<u64>> {
    let asked = reference::asked(job).expect("a sound job");
    let at = |query: &Query| reference::rival(&asked.table, asked.prices, &query.candidates);
    asked.queries.iter().map(at).collect()
}

fn parity(checks: &mut Checks) {
    let seven = odd_parity(7).job();
    let mut expected = vec![0x70, 64];
    let odd = (0..128u8).filter(|v| v.count_ones() % 2 == 1);
    odd.for_each(|v| expected.extend([127, v, 1]));
    expected.extend(answers(&[u64::MAX], 512, u64::MAX));
    checks.accepts("odd parity of 7", &seven, &expected);
    checks.refuses(
        "odd parity of 8",
        &odd_parity(8).job(),
        LONGEST,
        (11, 3 + 4 * 128, 0),
    );
}

fn lengths(checks: &mut Checks) {
    checks.refuses("no bytes", &[], 10, (2, 0, 0));
    checks.refuses("job too long", &vec![b'C'; LONGEST + 1], 10, (1, 0, 0));
    checks.refuses(
        "job of the longest length",
        &vec![b'C'; LONGEST],
        10,
        (4, 0, 0),
    );
    checks.refuses("buffer too long", &bytes(EXAMPLE), LONGEST + 1, (1, 0, 0));
    checks.refuses("no room for E", &bytes(EXAMPLE), 62, (14, 54, 62));
    checks.refuses("no room for L", &bytes(EXAMPLE), 50, (14, 43, 0));
}

/// Where two refusals apply at once the smaller number is given.
fn orders(checks: &mut Checks) {
    let mut refuses = |name, hex, room, expected| checks.refuses(name, &bytes(hex), room, expected);
    refuses("4 before 5", "54", 0, (4, 0, 0));
    refuses("5 before 6", "49 00", 0, (5, 0, 0));
    refuses("7 before 8", "49 01 01 52 02 ff ff", 0, (7, 3, 0));
    refuses("9 before 10", "49 01 01 54 00 01 01", 0, (9, 3, 0));
    refuses("10 alone", "49 01 01 54 00 00 01", 0, (10, 3, 0));
    refuses("12 before 14", "49 01 01 52 00 01 00 43", 0, (12, 7, 0));
    refuses("13 before 14", "49 01 01 45 45", 0, (13, 3, 0));
}
