//! Tables made from the products that are to remain: wanted cells, and candidates by the wanted
//! cells that they hold. Cells that no candidate shares multiply: so many products remain as their
//! holders have choices.

use super::bytes::full;
use super::draft::{come, draft, go, plain_case, put, term, Draft};
use super::queries::queries;
use super::ready::for_terms;
use super::tables::rows;
use super::Case;
use crate::reference::{
    irredundant_covers, of_terms, Candidate, Covers, Table, Term, MOST_CANDIDATES,
};
use crate::rng::Rng;

type Commands = Vec<Vec<u8>>;

/// A cell: vertex and output.
pub type At = (u8, u8);

/// The input that tells a factor's cell from the further ones of its candidates: behind it, where
/// the factor is at 0.
const FURTHER: u8 = 128;

/// A wanted cell with candidates of its own.
#[derive(Clone, Copy)]
pub struct Factor {
    pub at: At,
    pub first: usize,
    pub size: usize,
}

#[derive(Clone)]
pub struct Plan {
    n: usize,
    m: usize,
    factors: Vec<Factor>,
    /// For each candidate the cells that it is to hold. All are wanted but for the free ones.
    pub held: Vec<Vec<At>>,
    free: Vec<At>,
    /// Wanted cells that none holds.
    pub unheld: Vec<At>,
    everywhere: Option<usize>,
}

impl Plan {
    pub fn new(n: usize, m: usize) -> Plan {
        Plan {
            n,
            m,
            factors: Vec::new(),
            held: Vec::new(),
            free: Vec::new(),
            unheld: Vec::new(),
            everywhere: None,
        }
    }

    /// Eight inputs, and factors of these sizes by vertex, then output.
    pub fn of_factors(m: usize, sizes: &[usize]) -> Plan {
        let mut plan = Plan::new(8, m);
        for (i, &size) in sizes.iter().enumerate() {
            plan.factor(((i / m) as u8, (i % m) as u8), size);
        }
        plan
    }

    /// A wanted cell that so many candidates hold, which hold nothing else yet.
    pub fn factor(&mut self, at: At, size: usize) -> Factor {
        let first = self.held.len();
        self.held.extend(vec![vec![at]; size]);
        let factor = Factor { at, first, size };
        self.factors.push(factor);
        factor
    }

    /// A wanted cell that the first candidate of a factor alone holds: it leaves no choice.
    pub fn kill_at(&mut self, factor: Factor, at: At) {
        self.held[factor.first].push(at);
    }

    /// The same at the further cell of this factor.
    pub fn kill(&mut self, number: usize) {
        let factor = self.factors[number];
        self.kill_at(factor, further(factor.at));
    }

    /// The further cell of this factor is held by the same candidates: it changes nothing.
    pub fn again(&mut self, number: usize) {
        let Factor { at, first, size } = self.factors[number];
        let own = &mut self.held[first..first + size];
        own.iter_mut().for_each(|held| held.push(further(at)));
    }

    /// A candidate that holds every wanted cell: a product by itself, beside all the others.
    pub fn everywhere(&mut self) {
        self.everywhere = Some(self.held.len());
        self.held.push(self.wanted());
    }

    /// It holds the cells that came behind it, too.
    pub fn everywhere_again(&mut self) {
        if let Some(number) = self.everywhere {
            self.held[number] = self.wanted();
        }
    }

    pub fn factors(&self) -> &[Factor] {
        &self.factors
    }

    /// A candidate that holds a free cell alone.
    pub fn idle(&mut self, at: At) {
        self.held.push(vec![at]);
        self.free.push(at);
    }

    /// Other numbers for the candidates; what had the old ones is forgotten.
    pub fn shuffle(&mut self, rng: &mut Rng) {
        self.factors.clear();
        self.everywhere = None;
        rng.shuffle(&mut self.held);
    }

    fn wanted(&self) -> Vec<At> {
        let held = self.held.iter().flatten().copied();
        let mut list: Vec<At> = held.filter(|at| !self.free.contains(at)).collect();
        list.extend(&self.unheld);
        list.sort_unstable();
        list.dedup();
        list
    }

    /// Each candidate has the least cube around its cells, and their outputs. The other cells in it
    /// are free.
    pub fn made(&self) -> (Table, Vec<Term>) {
        let terms: Vec<Term> = self.held.iter().map(|held| self.around(held)).collect();
        self.with_terms(terms)
    }

    /// The same with larger cubes and more outputs, as far as they hold no further wanted cell.
    pub fn widened(&self, rng: &mut Rng) -> (Table, Vec<Term>) {
        let (table, mut terms) = self.made();
        for t in &mut terms {
            for _ in 0..rng.below(6) {
                let mut wider = *t;
                if rng.chance(1, 2) {
                    wider.care &= !(1 << rng.below(self.n));
                    wider.value &= wider.care;
                } else {
                    wider.outputs |= 1 << rng.below(self.m);
                }
                if held_by(&table, &wider) == held_by(&table, t) {
                    *t = wider;
                }
            }
        }
        self.with_terms(terms)
    }

    /// These terms with blocks for some of them, which hold the same wanted cells.
    pub fn with_blocks(&self, rng: &mut Rng, terms: &[Term]) -> Vec<Candidate> {
        let vertices = |i: usize| self.held[i].iter().map(|&(v, _)| v.into()).collect();
        for_terms(rng, self.n, terms, vertices)
    }

    fn around(&self, held: &[At]) -> Term {
        let (v, _) = held[0];
        let differ = held.iter().fold(0, |bits, at| bits | (at.0 ^ v));
        let care = full(self.n) & !differ;
        Term {
            care,
            value: v & care,
            outputs: held.iter().fold(0, |bits, at| bits | 1 << at.1),
        }
    }

    fn with_terms(&self, terms: Vec<Term>) -> (Table, Vec<Term>) {
        let mut table = Table::new(self.n, self.m);
        for (v, j) in self.wanted() {
            table.on[usize::from(v)] |= 1 << j;
        }
        for v in 0..table.vertices() {
            let holds = |t: &&Term| (v as u8 ^ t.value) & t.care == 0;
            let outputs = terms.iter().filter(holds).fold(0, |all, t| all | t.outputs);
            table.dc[v] = outputs & !table.on[v];
        }
        for (t, held) in terms.iter().zip(&self.held) {
            let mut due = held.clone();
            due.retain(|at| !self.free.contains(at));
            due.sort_unstable();
            assert_eq!(held_by(&table, t), due, "cubes that hold other cells, too");
        }
        (table, terms)
    }

    /// The rows and the candidates by T, then what is asked.
    pub fn job(&self, rng: &mut Rng, asked: Commands) -> Draft {
        let (table, terms) = self.made();
        job_of(rng, &table, &terms, asked)
    }
}

fn further((v, j): At) -> At {
    (v ^ FURTHER, j)
}

/// The wanted cells that a term holds.
fn held_by(table: &Table, t: &Term) -> Vec<At> {
    let mut list = table.wanted_cells();
    list.retain(|&(v, j)| t.holds(v, j));
    list.iter().map(|&(v, j)| (v as u8, j as u8)).collect()
}

pub fn by_terms(terms: &[Term]) -> Commands {
    let by_term = |t: &Term| term(t.care, t.value, t.outputs);
    terms.iter().map(by_term).collect()
}

pub fn job_of(rng: &mut Rng, table: &Table, terms: &[Term], asked: Commands) -> Draft {
    let parts = [rows(rng, table), by_terms(terms), asked];
    draft(table.n as u8, table.m as u8, parts)
}

/// The same with candidates by T and F.
pub fn job_with(rng: &mut Rng, table: &Table, list: &[Candidate], asked: Commands) -> Draft {
    let parts = [rows(rng, table), list.iter().map(put).collect(), asked];
    draft(table.n as u8, table.m as u8, parts)
}

/// Factors up to about so many products, now and then with a candidate that holds every cell, with
/// cells that leave no choice or change nothing, and with candidates that hold nothing wanted.
pub fn drawn_plan(rng: &mut Rng) -> Plan {
    let mut plan = Plan::new(8, rng.between(1, 3));
    let enough = rng.pick(&[8, 60, 300, 700, 1_000, 1_024, 1_025, 1_500, 3_000]);
    let mut products = 1;
    let mut places: Vec<At> = (0..FURTHER)
        .flat_map(|v| (0..3).map(move |j| (v, j)))
        .filter(|at| usize::from(at.1) < plan.m)
        .collect();
    rng.shuffle(&mut places);
    let turned = rng.chance(1, 3);
    while products < enough && plan.held.len() < MOST_CANDIDATES - 12 {
        let size = rng.pick(&[1, 2, 2, 2, 3, 3, 4, 5, 7]);
        let at = places.pop().expect("more places than candidates");
        plan.factor(if turned { further(at) } else { at }, size);
        products *= size;
        let number = plan.factors.len() - 1;
        match rng.below(8) {
            0 | 1 => plan.kill(number),
            2 => plan.again(number),
            _ => {}
        }
    }
    for _ in 0..rng.below(3) {
        plan.idle(places.pop().expect("more places than candidates"));
    }
    if rng.chance(1, 3) {
        plan.everywhere();
    }
    plan.shuffle(rng);
    plan
}

/// A drawn plan, every second one with blocks, asked by N and pages; a term goes and comes again
/// between two N.
pub fn case(rng: &mut Rng) -> Case {
    let plan = drawn_plan(rng);
    let (table, terms) = plan.widened(rng);
    let list = if rng.chance(1, 2) {
        plan.with_blocks(rng, &terms)
    } else {
        of_terms(&terms)
    };
    let mut asked = match irredundant_covers(&table, &list) {
        Covers::All(covers) => queries(rng, &covers, list.len()),
        _ => Vec::new(),
    };
    asked.insert(rng.below(asked.len() + 1), vec![b'N']);
    let number = rng.below(list.len());
    if let (true, Candidate::Term(t)) = (rng.chance(1, 2), list[number]) {
        let back = come(t.care, t.value, t.outputs);
        asked.extend([go(number as u8), back, vec![b'N']]);
    }
    let job = job_with(rng, &table, &list, asked);
    plain_case(rng, &job)
}
