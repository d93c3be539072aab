//! A second way to the covers, for tables with too many subsets to try: plain backtracking, given
//! up after some work. It shares no code with the engine and none with the reference.

/// How many sums a search may look at before it is given up.
const WORK: u64 = 60_000_000;
/// Costs are split among sums in parts of this size.
const PARTS: u64 = 1 << 20;

/// More work than is taken on.
pub struct GivenUp;

/// The sums of a table (for each wanted cell the candidates that hold it), the costs divided by
/// what divides all of them, and the work that is left.
pub struct Search {
    sums: Vec<u64>,
    costs: Vec<u64>,
    work: u64,
}

fn alone(set: u64) -> bool {
    set.count_ones() == 1
}

fn below(count: usize) -> u64 {
    (0..count).map(|i| 1 << i).sum()
}

fn members(set: u64) -> impl DoubleEndedIterator<Item = usize> {
    (0..64).filter(move |i| set >> i & 1 == 1)
}

fn common_divisor(a: u64, b: u64) -> u64 {
    if b == 0 {
        a
    } else {
        common_divisor(b, a % b)
    }
}

impl Search {
    /// A sum that has all candidates of another one is met with it, and is left out.
    pub fn new(sums: &[u64], costs: &[u64]) -> Search {
        let implied = |x: &u64| sums.iter().any(|y| y != x && y & !x == 0);
        let mut kept: Vec<u64> = sums.iter().copied().filter(|x| !implied(x)).collect();
        kept.sort_unstable();
        kept.dedup();
        let unit = costs.iter().copied().fold(0, common_divisor).max(1);
        Search {
            sums: kept,
            costs: costs.iter().map(|cost| cost / unit).collect(),
            work: WORK,
        }
    }

    fn look(&mut self) -> Result<(), GivenUp> {
        let cost = self.sums.len() as u64 + 1;
        self.work = self.work.checked_sub(cost).ok_or(GivenUp)?;
        Ok(())
    }

    // Pages.

    /// The irredundant covers at or above the start, rising, at most as many as asked for.
    pub fn covers_from(&mut self, start: u64, most: usize) -> Result<Vec<u64>, GivenUp> {
        self.work = WORK;
        let mut found = Vec::new();
        let count = self.costs.len();
        if start & !below(count) == 0 {
            self.walk(count, 0, Some(start), most, &mut found)?;
        }
        Ok(found)
    }

    /// Decides the candidates below `open` from the top, each left out before it is taken. `floor`
    /// is the start as long as the decisions are its own bits.
    fn walk(
        &mut self,
        open: usize,
        taken: u64,
        floor: Option<u64>,
        most: usize,
        found: &mut Vec<u64>,
    ) -> Result<(), GivenUp> {
        self.look()?;
        if found.len() >= most || !self.hopeful(taken, below(open)) {
            return Ok(());
        }
        let Some(next) = open.checked_sub(1) else {
            found.push(taken);
            return Ok(());
        };
        let bit = 1 << next;
        let must = floor.is_some_and(|start| start & bit != 0);
        if !must {
            self.walk(next, taken, floor, most, found)?;
        }
        self.walk(next, taken | bit, floor.filter(|_| must), most, found)
    }

    /// Each sum can still be met, and each taken candidate alone meets some sum.
    fn hopeful(&self, taken: u64, open: u64) -> bool {
        let mut needed = 0;
        for sum in &self.sums {
            if sum & (taken | open) == 0 {
                return false;
            }
            if alone(sum & taken) {
                needed |= sum & taken;
            }
        }
        needed == taken
    }

    // The cheapest.

    fn cost(&self, set: u64) -> u64 {
        members(set).map(|i| self.costs[i]).sum()
    }

    /// Whether no cover costs less than this one, and none that costs as much has a smaller
    /// number: such a one has the same candidates above some member of the set, and not that one.
    pub fn is_cheapest(&mut self, set: u64) -> Result<bool, GivenUp> {
        let cost = self.cost(set);
        if !self.none_cheaper(set)? {
            return Ok(false);
        }
        for i in members(set).rev() {
            let above = set & !below(i + 1);
            if self.affordable(above, below(i), cost - self.cost(above))? {
                return Ok(false);
            }
        }
        Ok(true)
    }

    /// Whether no cover costs less than this one.
    pub fn none_cheaper(&mut self, set: u64) -> Result<bool, GivenUp> {
        self.work = WORK;
        let cost = self.cost(set);
        let all = below(self.costs.len());
        Ok(cost == 0 || !self.affordable(0, all, cost - 1)?)
    }

    /// Whether the open candidates can meet what the taken ones do not, for this much at most.
    fn affordable(&mut self, taken: u64, open: u64, budget: u64) -> Result<bool, GivenUp> {
        self.look()?;
        let left = |sum: &u64| (sum & taken == 0).then_some(sum & open);
        let unmet: Vec<u64> = self.sums.iter().filter_map(left).collect();
        let Some(&smallest) = unmet.iter().min_by_key(|sum| sum.count_ones()) else {
            return Ok(true);
        };
        if smallest == 0 || self.least(&unmet) > budget {
            return Ok(false);
        }
        let mut rest = open;
        for i in members(smallest) {
            rest &= !(1 << i);
            if self.costs[i] <= budget
                && self.affordable(taken | 1 << i, rest, budget - self.costs[i])?
            {
                return Ok(true);
            }
        }
        Ok(false)
    }

    /// What meeting these sums costs at least: each candidate's cost is split evenly among the
    /// sums that have it, and each sum is paid by the least part that it is offered.
    fn least(&self, unmet: &[u64]) -> u64 {
        let mut times = [0; 64];
        for &sum in unmet {
            members_fast(sum, |i| times[i] += 1);
        }
        let mut part = [0; 64];
        for (i, cost) in self.costs.iter().enumerate() {
            part[i] = cost * PARTS / u64::max(1, times[i]);
        }
        let mut paid = 0;
        for &sum in unmet {
            let mut offer = u64::MAX;
            members_fast(sum, |i| offer = offer.min(part[i]));
            paid += offer;
        }
        paid.div_ceil(PARTS)
    }
}

/// The same as `members`, by the bits that are set.
fn members_fast(mut set: u64, mut each: impl FnMut(usize)) {
    while set != 0 {
        each(set.trailing_zeros() as usize);
        set &= set - 1;
    }
}
