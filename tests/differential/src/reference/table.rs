//! Cells, terms and primes, by their definitions.

#[derive(Clone, Copy, PartialEq, Eq, Debug)]
pub enum Cell {
    Off,
    Wanted,
    Free,
}

#[derive(Clone, Copy, PartialEq, Eq, Debug)]
pub struct Term {
    pub care: u8,
    pub value: u8,
    pub outputs: u8,
}

impl Term {
    /// The cube's half of holding: v and value agree on each bit of care.
    fn agrees(self, v: usize) -> bool {
        (v as u8 ^ self.value) & self.care == 0
    }

    pub fn holds(self, v: usize, j: usize) -> bool {
        self.agrees(v) && bit(self.outputs, j)
    }
}

fn bit(byte: u8, i: usize) -> bool {
    byte >> i & 1 == 1
}

/// Every byte that has some of this one's ones, rising.
pub fn below(byte: u8) -> impl Iterator<Item = u8> {
    let next = move |bits: &u8| (*bits != byte).then(|| bits.wrapping_sub(byte) & byte);
    std::iter::successors(Some(0), next)
}

/// True when the byte has bits below `width` only.
pub fn fits(byte: u8, width: usize) -> bool {
    usize::from(byte) < 1 << width
}

#[derive(Clone)]
pub struct Table {
    pub n: usize,
    pub m: usize,
    pub on: [u8; 256],
    pub dc: [u8; 256],
}

impl Table {
    pub fn new(n: usize, m: usize) -> Table {
        Table {
            n,
            m,
            on: [0; 256],
            dc: [0; 256],
        }
    }

    pub fn vertices(&self) -> usize {
        1 << self.n
    }

    pub fn cell(&self, v: usize, j: usize) -> Cell {
        if bit(self.on[v], j) {
            Cell::Wanted
        } else if bit(self.dc[v], j) {
            Cell::Free
        } else {
            Cell::Off
        }
    }

    pub fn cells(&self) -> impl Iterator<Item = (usize, usize)> {
        let m = self.m;
        (0..self.vertices()).flat_map(move |v| (0..m).map(move |j| (v, j)))
    }

    pub fn wanted_cells(&self) -> Vec<(usize, usize)> {
        self.cells()
            .filter(|&(v, j)| self.cell(v, j) == Cell::Wanted)
            .collect()
    }

    /// The part of legality that refusal 9 speaks of.
    pub fn well_formed(&self, t: Term) -> bool {
        fits(t.care, self.n) && t.value & !t.care == 0 && t.outputs != 0 && fits(t.outputs, self.m)
    }

    /// The part of legality that refusal 10 speaks of.
    pub fn holds_off_cell(&self, t: Term) -> bool {
        self.cells()
            .any(|(v, j)| t.holds(v, j) && self.cell(v, j) == Cell::Off)
    }

    pub fn legal(&self, t: Term) -> bool {
        self.well_formed(t) && !self.holds_off_cell(t)
    }

    /// The outputs that are nowhere off on the cube, whose vertices differ in its free inputs.
    pub fn allowed_outputs(&self, care: u8, value: u8) -> u8 {
        let all = (0..self.m).map(|j| 1 << j).sum();
        let free = (self.vertices() - 1) as u8 & !care;
        let inside = below(free).map(|bits| usize::from(value | bits));
        inside.fold(all, |outputs: u8, v| outputs & (self.on[v] | self.dc[v]))
    }

    /// Every care and value that a well-formed term may have, in the order of the primes.
    fn cubes(&self) -> Vec<(u8, u8)> {
        let end = self.vertices();
        let pairs = (0..end).flat_map(|care| (0..end).map(move |value| (care as u8, value as u8)));
        pairs.filter(|(care, value)| value & !care == 0).collect()
    }

    pub fn primes(&self) -> Vec<Term> {
        if self.n <= 4 && self.m <= 4 {
            self.primes_by_terms()
        } else {
            self.primes_by_wider_cubes()
        }
    }

    /// Every legal term: each cube with each choice of outputs is tried.
    pub fn legal_terms(&self) -> Vec<Term> {
        let mut legal = Vec::new();
        for (care, value) in self.cubes() {
            for outputs in 1..1u16 << self.m {
                let t = Term {
                    care,
                    value,
                    outputs: outputs as u8,
                };
                if self.legal(t) {
                    legal.push(t);
                }
            }
        }
        legal
    }

    /// The definition itself: each legal term against each other legal term, cell by cell.
    pub fn primes_by_terms(&self) -> Vec<Term> {
        let with_cells = |t: Term| (t, self.held_cells(t));
        let legal: Vec<(Term, u64)> = self.legal_terms().into_iter().map(with_cells).collect();
        let contained = |q: &(Term, u64)| legal.iter().any(|p| p.0 != q.0 && q.1 & !p.1 == 0);
        legal
            .iter()
            .filter(|q| !contained(q))
            .map(|q| q.0)
            .collect()
    }

    /// One bit for each held cell; for tables of up to 64 cells.
    fn held_cells(&self, t: Term) -> u64 {
        let held = self
            .cells()
            .enumerate()
            .filter(|&(_, (v, j))| t.holds(v, j));
        held.map(|(place, _)| 1u64 << place).sum()
    }

    /// For larger tables: only the largest outputs of a cube can be prime, and only a larger
    /// cube with at least these outputs can hold all the cells.
    pub fn primes_by_cubes(&self) -> Vec<Term> {
        let widest = |(care, value)| Term {
            care,
            value,
            outputs: self.allowed_outputs(care, value),
        };
        let legal: Vec<Term> = self
            .cubes()
            .into_iter()
            .map(widest)
            .filter(|t| t.outputs != 0)
            .collect();
        let contains = |p: &Term, q: &Term| {
            p.care & !q.care == 0 && q.value & p.care == p.value && q.outputs & !p.outputs == 0
        };
        let contained = |q: &Term| legal.iter().any(|p| p != q && contains(p, q));
        legal.iter().copied().filter(|q| !contained(q)).collect()
    }
    /// The same, where the cubes that hold a cube's vertices are not searched for: they have some
    /// of its literals.
    pub fn primes_by_wider_cubes(&self) -> Vec<Term> {
        let place = |care: u8, value: u8| usize::from(care) << 8 | usize::from(value);
        let mut widest = vec![0; 1 << 16];
        for (care, value) in self.cubes() {
            widest[place(care, value)] = self.allowed_outputs(care, value);
        }
        let contained = |t: &Term| {
            let mut wider = below(t.care).filter(|&care| care != t.care);
            wider.any(|care| t.outputs & !widest[place(care, t.value & care)] == 0)
        };
        let with_outputs = |(care, value)| Term {
            care,
            value,
            outputs: widest[place(care, value)],
        };
        let cubes = self.cubes().into_iter().map(with_outputs);
        cubes.filter(|t| t.outputs != 0 && !contained(t)).collect()
    }
}
