//! What a run has met: how often each number came, what became of each command, what was held to
//! the promises of K2, K3, K6 to K11 and to document 000, what the records showed, and, at each C
//! of the drawn jobs, how often K1 and the prices changed cost or set of the cheapest and how often
//! the cost was held to the rival's. A run fails where one of these never came. The jobs made on
//! purpose do not count for L and C, nor for the rows of B and for W: the marked cases and each row
//! are among them, so that no count could stay at 0. For P, N, F, G and V they are counted apart.

mod blocks;
mod cubes;
mod order;
mod presence;
mod prices;
mod products;
mod ranges;
mod ready;
mod records;

use crate::charged;
use crate::cubes::Held as HeldPrimes;
use crate::dump;
use crate::expanded;
use crate::format::{self, Command, COMMANDS, LAST_NUMBER};
use crate::fresh::Held;
use crate::implicants;
use crate::listing;
use crate::products::Held as HeldProducts;
use crate::ranged::Held as HeldRanges;
use crate::ready::Held as HeldBlocks;
use crate::reference::{self, Asked, Candidate, Covers, Outcome, Prices, Query};
use crate::reordered;
use crate::report::hex;
use crate::without_ranges;
use blocks::Blocks;
use cubes::Primes;
use order::Orders;
use presence::Presences;
use prices::Priced;
use products::Multiplied;
use ranges::Ranges;
use ready::Ready;
use records::Records;
use std::collections::BTreeMap;

pub struct Tally {
    numbers: [usize; LAST_NUMBER as usize + 1],
    /// By command and number, how many jobs stopped there; under 0 the accepted jobs that have it.
    commands: BTreeMap<(u8, u64), usize>,
    /// Whether the jobs that are added now are drawn.
    pub drawn: bool,
    changes: Changes,
    blocks: Blocks,
    presences: Presences,
    primes: Primes,
    records: Records,
    cheapest: Cheapest,
    priced: Priced,
    multiplied: Multiplied,
    orders: Orders,
    ready: Ready,
    ranges: Ranges,
}

/// The accepted drawn jobs whose candidates come and go.
#[derive(Default)]
struct Changes {
    /// Those with an L, C or N whose candidates have changed since an earlier one.
    jobs: usize,
    /// L, C and N commands held to a fresh job, and lists joined over further jobs.
    held: Held,
}

/// C in the accepted drawn jobs, once for the same candidates.
#[derive(Default)]
struct Cheapest {
    times: usize,
    /// At the usual prices cost or set is another than before K1.
    other_costs: usize,
    other_sets: usize,
    /// The cost is the rival's, and how often that was behind an A or D and at other prices than
    /// the usual ones; the first job whose cost should be and is not.
    rivals: usize,
    rivals_behind_changes: usize,
    rivals_at_prices: usize,
    beaten: Option<Vec<u8>>,
}

impl Tally {
    pub fn new() -> Tally {
        Tally {
            numbers: [0; LAST_NUMBER as usize + 1],
            commands: BTreeMap::new(),
            drawn: false,
            changes: Changes::default(),
            blocks: Blocks::default(),
            presences: Presences::default(),
            primes: Primes::default(),
            records: Records::default(),
            cheapest: Cheapest::default(),
            priced: Priced::default(),
            multiplied: Multiplied::default(),
            orders: Orders::default(),
            ready: Ready::default(),
            ranges: Ranges::default(),
        }
    }

    pub fn add(&mut self, job: &[u8], outcome: &Outcome) {
        self.numbers[outcome.number as usize] += 1;
        let mut bytes: Vec<u8> = if outcome.number == 0 {
            let whole = format::cut(job).expect("an accepted job is a list of commands");
            whole.iter().map(|command| command[0]).collect()
        } else if outcome.number > 3 {
            vec![job[outcome.offset]]
        } else {
            // 1 to 3 are met before there is a command.
            vec![]
        };
        bytes.sort_unstable();
        bytes.dedup();
        for byte in bytes {
            *self.commands.entry((byte, outcome.number)).or_insert(0) += 1;
        }
    }

    /// An accepted job. The engine's answers are the reference's by now, so the reference's are
    /// looked at.
    pub fn add_asked(&mut self, job: &[u8], asked: &Asked) {
        if !self.drawn {
            return;
        }
        let changed = |two: &[Query]| two[0].candidates != two[1].candidates;
        self.changes.jobs += usize::from(asked.queries.windows(2).any(changed));
        let behind_block = !asked.queries.is_empty() && format::has(job, b"B");
        let and_changes = behind_block && format::come_and_go(job);
        self.blocks.asked += usize::from(behind_block);
        self.blocks.asked_with_changes += usize::from(and_changes);
        let mut cheapest: Vec<&Query> = asked.queries.iter().collect();
        cheapest.retain(|query| query.command == b"C");
        cheapest.dedup_by(|later, first| later.candidates == first.candidates);
        for query in cheapest {
            let Covers::All(covers) =
                reference::irredundant_covers(&asked.table, &query.candidates)
            else {
                unreachable!("C was answered");
            };
            self.cheapest.add(job, asked, query, &covers);
            if format::has(job, b"W") {
                self.priced.add(asked, query, &covers);
            }
            self.ready.add_cheapest(asked, query, &covers);
        }
    }

    /// A job whose C commands were held to the prices.
    pub fn add_charged(&mut self, held: &charged::Held) {
        if self.drawn {
            self.priced.add_held(held);
        }
    }

    /// A job on whose outcome engine and reference agree: what it meets of F.
    pub fn add_blocks_met(&mut self, job: &[u8], outcome: &Outcome) {
        self.ready.add(job, outcome, self.drawn);
    }

    /// The same of G and V.
    pub fn add_ranges_met(&mut self, job: &[u8], outcome: &Outcome) {
        self.ranges.add(job, outcome, self.drawn);
    }

    /// A job whose V commands were held to every cover.
    pub fn add_ranged(&mut self, held: &HeldRanges) {
        self.ranges.add_held(held, self.drawn);
    }

    /// A job that was held to the one without G and V.
    pub fn add_without_ranges(&mut self, held: &without_ranges::Held) {
        self.ranges.add_without(held, self.drawn);
    }

    /// A job that was held to the one with blocks for terms.
    pub fn add_ready(&mut self, held: &HeldBlocks) {
        self.ready.add_held(held, self.drawn);
    }

    /// A job with W that was held to those with other prices.
    pub fn add_listing(&mut self, held: &listing::Held, number: u64) {
        self.ready.add_listing(held, self.drawn);
        if self.drawn {
            self.priced.add_listing(held, number);
        }
    }

    pub fn add_held(&mut self, held: &Held) {
        self.ready.add_fresh(held, self.drawn);
        self.ranges.add_fresh(held, self.drawn);
        if self.drawn {
            self.changes.held.queries += held.queries;
            self.changes.held.lists += held.lists;
        }
    }

    /// A job that was held to the one with R for B.
    pub fn add_blocks(&mut self, held: &expanded::Held, number: u64) {
        if self.drawn {
            self.blocks.add(held, number);
        }
    }

    /// A job whose L, C and N commands were held to the presence function.
    pub fn add_presence(&mut self, held: &implicants::Held) {
        if self.drawn {
            self.presences.add(held);
        }
    }

    /// A job whose P was held to the table of cubes.
    pub fn add_primes(&mut self, held: &HeldPrimes) {
        self.primes.add(held, self.drawn);
    }

    /// A job whose N commands were held to L's pages.
    pub fn add_products(&mut self, job: &[u8], held: &HeldProducts) {
        self.multiplied.add(job, held, self.drawn);
    }

    /// A job that was held to one with its T commands in another order.
    pub fn add_order(&mut self, held: &reordered::Held) {
        if self.drawn {
            self.orders.drawn.add(held);
        }
    }

    /// The same of one made on purpose for that.
    pub fn add_order_on_purpose(&mut self, held: &reordered::Held) {
        self.orders.on_purpose.add(held);
    }

    /// A job whose record was compared.
    pub fn add_record(&mut self, job: &[u8], held: &dump::Held, drawn: bool) {
        self.records.add(held);
        self.ready.add_record(job, held, drawn);
        self.ranges.add_record(job, held, drawn);
        if drawn {
            self.records.add_drawn(job, held);
        }
    }

    /// How often each number came, and the pair of command and number that came least.
    pub fn print(&self) {
        let times = self.numbers.iter().enumerate();
        let times: Vec<String> = times.map(|(i, n)| format!("{i}: {n}")).collect();
        println!("how often each number came: {}", times.join(", "));
        if let Some((&(byte, number), times)) = self.commands.iter().min_by_key(|pair| pair.1) {
            let command = char::from(byte);
            println!("least often: {command} with number {number}, {times} times");
        }
        self.changes.print();
        self.blocks.print();
        self.presences.print();
        self.primes.print();
        self.records.print();
        self.cheapest.print();
        self.priced.print();
        self.multiplied.print();
        self.orders.print();
        self.ready.print();
        self.ranges.print();
    }

    /// What should have come and did not, and what came that the table of commands does not name.
    pub fn complaints(&self) -> Vec<String> {
        let mut list = Vec::new();
        for (number, &times) in self.numbers.iter().enumerate() {
            if times == 0 {
                list.push(format!("number {number} never came"));
            }
        }
        let wanted = wanted();
        for &(byte, number) in &wanted {
            if !self.commands.contains_key(&(byte, number)) {
                list.push(format!("{} never met number {number}", char::from(byte)));
            }
        }
        for pair in self.commands.keys().filter(|pair| !wanted.contains(pair)) {
            let (byte, number) = (char::from(pair.0), pair.1);
            list.push(format!(
                "{byte} met number {number}, not named in format.rs"
            ));
        }
        list.extend(self.changes.complaints());
        list.extend(self.blocks.complaints());
        list.extend(self.presences.complaints());
        list.extend(self.primes.complaints());
        list.extend(self.records.complaints());
        list.extend(self.cheapest.complaints());
        list.extend(self.priced.complaints());
        list.extend(self.multiplied.complaints());
        list.extend(self.orders.complaints());
        list.extend(self.ready.complaints());
        list.extend(self.ranges.complaints());
        list
    }
}

/// A complaint for each count that stayed at 0.
fn never(counts: &[(usize, &str)]) -> Vec<String> {
    let zero = counts.iter().filter(|(times, _)| *times == 0);
    zero.map(|(_, what)| what.to_string()).collect()
}

impl Changes {
    fn print(&self) {
        println!(
            "{} drawn jobs ask again over changed candidates; {} L, C and N were held to a fresh \
             job, {} lists joined over further jobs",
            self.jobs, self.held.queries, self.held.lists
        );
    }

    fn complaints(&self) -> Vec<String> {
        never(&[
            (
                self.jobs,
                "no drawn job has an L, C or N whose candidates have changed since an earlier one",
            ),
            (self.held.queries, "no L, C or N was held to a fresh job"),
            (self.held.lists, "no list was joined over further jobs"),
        ])
    }
}

impl Cheapest {
    fn add(&mut self, job: &[u8], asked: &Asked, query: &Query, covers: &[u64]) {
        let (prices, candidates) = (asked.prices, &query.candidates);
        let (cost, set) = reference::cheapest(prices, candidates, covers);
        let usual = prices == Prices::USUAL;
        let (cost_before, set_before) = cheapest_before(candidates, covers);
        self.times += 1;
        self.other_costs += usize::from(usual && cost != cost_before);
        self.other_sets += usize::from(usual && set != set_before);
        match reference::rival(&asked.table, prices, candidates) {
            Some(least) if least == cost => {
                self.rivals += 1;
                let changed = format::come_and_go(&job[..query.at]);
                self.rivals_behind_changes += usize::from(changed);
                self.rivals_at_prices += usize::from(!usual);
            }
            Some(_) => self.beaten = self.beaten.take().or(Some(job.to_vec())),
            None => {}
        }
    }

    fn print(&self) {
        println!(
            "{} cheapest of drawn jobs: K1 changed the cost of {} and the set of {}, \
             {} were held to the rival, {} of these behind A or D and {} at other prices",
            self.times,
            self.other_costs,
            self.other_sets,
            self.rivals,
            self.rivals_behind_changes,
            self.rivals_at_prices
        );
    }

    fn complaints(&self) -> Vec<String> {
        let mut list = never(&[
            (
                self.other_costs,
                "K1 never changed the cost of the cheapest",
            ),
            (self.other_sets, "K1 never changed the set of the cheapest"),
            (self.rivals, "no cheapest was held to the rival"),
            (
                self.rivals_behind_changes,
                "no cheapest behind A or D was held to the rival",
            ),
            (
                self.rivals_at_prices,
                "no cheapest at other prices than usual was held to the rival",
            ),
        ]);
        let beaten = self.beaten.iter();
        list.extend(beaten.map(|job| format!("the cost is not the rival's: {}", hex(job))));
        list
    }
}

/// Cost and set of the cheapest before K1, when every term cost 1 plus its literals.
fn cheapest_before(candidates: &[Candidate], covers: &[u64]) -> (u64, u64) {
    let cost_before = |i: usize| match &candidates[i] {
        Candidate::Term(t) => 1 + u64::from(t.care.count_ones()),
        Candidate::Block(b) => b.weight.into(),
    };
    let cost = |set: u64| {
        let members = (0..candidates.len()).filter(|i| set >> i & 1 == 1);
        members.map(cost_before).sum()
    };
    let with_cost = covers.iter().map(|&set| (cost(set), set));
    with_cost.min().expect("C was answered")
}

/// Each command with each number that it must meet, 0 among them.
fn wanted() -> Vec<(u8, u64)> {
    let of_command = |command: &Command| {
        let numbers = [vec![0], command.numbers()].concat();
        let byte = command.byte;
        numbers.into_iter().map(move |number| (byte, number))
    };
    COMMANDS.iter().flat_map(of_command).collect()
}
