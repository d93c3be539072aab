//! The presence function of document 000 by its formulas (2), (3) and (4), with paper 01's
//! correction: the points are the wanted cells, and each keeps its sum. It goes by single bits and
//! shares no code with `covers.rs`.

use super::candidate::Candidate;
use super::table::Table;

/// The document's point: a vertex and an output.
pub type Point = (usize, usize);

/// The values of the functions at each point. They are the same for every set.
pub struct Presence {
    count: usize,
    values: Vec<Vec<bool>>,
}

/// The wanted cells by vertex, then output. Free and off cells are no points.
pub fn points(table: &Table) -> Vec<Point> {
    let mut list = Vec::new();
    for v in 0..1 << table.n {
        for j in 0..table.m {
            if table.on[v] >> j & 1 == 1 {
                list.push((v, j));
            }
        }
    }
    list
}

/// The value of a candidate's function at a point: at its outputs the product of its literals, or
/// what a block has for the vertex in its row of bits, low bit first.
fn function(candidate: &Candidate, (v, j): Point) -> bool {
    let bit = |byte: u8, i: usize| byte >> i & 1 == 1;
    let (value, outputs) = match candidate {
        Candidate::Term(t) => {
            let literal = |i: usize| bit(t.value, i) == (v >> i & 1 == 1);
            let product = (0..8).all(|i| !bit(t.care, i) || literal(i));
            (product, t.outputs)
        }
        Candidate::Block(b) => {
            let mut row = b
                .vertices
                .iter()
                .flat_map(|&byte| (0..8).map(move |i| bit(byte, i)));
            (row.nth(v).expect("a vertex"), b.outputs)
        }
    };
    value && bit(outputs, j)
}

/// Formula (2): whether all functions have the same value at a point.
pub fn delta(values: &[bool]) -> bool {
    values.windows(2).all(|two| two[0] == two[1])
}

/// Formula (3) without the delta: the sum over the functions, each times its bit of the set.
pub fn sum(values: &[bool], set: u64) -> bool {
    let mut functions = values.iter().enumerate();
    functions.any(|(m, &value)| value && set >> m & 1 == 1)
}

impl Presence {
    pub fn new(table: &Table, candidates: &[Candidate]) -> Presence {
        let at = |point: Point| candidates.iter().map(|c| function(c, point)).collect();
        Presence {
            count: candidates.len(),
            values: points(table).into_iter().map(at).collect(),
        }
    }

    /// The set of all candidates.
    pub fn all(&self) -> u64 {
        (0..self.count).map(|m| 1 << m).sum()
    }

    /// Formula (4): the product of the sums over the points.
    pub fn presence(&self, set: u64) -> bool {
        self.values.iter().all(|values| sum(values, set))
    }

    /// Formulas (3) and (4) as the document has them. The delta drops the wanted cells that all
    /// candidates hold and those that none holds.
    pub fn presence_with_delta(&self, set: u64) -> bool {
        let factor = |values: &Vec<bool>| delta(values) || sum(values, set);
        self.values.iter().all(factor)
    }

    /// The presence of every set by its number, in one of the ways above; for few candidates.
    pub fn of_every_set(&self, way: impl Fn(&Presence, u64) -> bool) -> Vec<bool> {
        (0..1 << self.count).map(|s| way(self, s)).collect()
    }
}

/// Whether each set is an implicant of Lemmas 1 and 2: the presence is 1 wherever its members are.
pub fn implicants(of_every_set: &[bool]) -> Vec<bool> {
    let mut list = of_every_set.to_vec();
    for s in (0..list.len()).rev() {
        // Each larger set with the members of s has these and some one more.
        list[s] = list[s] && members(!s, list.len()).all(|bit| list[s | bit]);
    }
    list
}

/// The prime implicants of the Theorem, rising: without any one member they are no implicants.
pub fn prime_implicants(of_every_set: &[bool]) -> Vec<u64> {
    let list = implicants(of_every_set);
    let prime = |&s: &usize| list[s] && !members(s, list.len()).any(|bit| list[s & !bit]);
    (0..list.len()).filter(prime).map(|s| s as u64).collect()
}

/// The members of a set as bits, those below a power of two.
fn members(s: usize, end: usize) -> impl Iterator<Item = usize> {
    let bits = (0..).map(|m| 1 << m).take_while(move |&bit| bit < end);
    bits.filter(move |bit| s & bit != 0)
}
