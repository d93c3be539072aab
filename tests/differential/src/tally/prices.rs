//! What the drawn jobs have met of W: a run fails where one of these never came.

use super::never;
use crate::charged::{self, charge_set, Way, WRONG};
use crate::listing;
use crate::reference::{self, Asked, Prices, Query};

#[derive(Default)]
pub struct Priced {
    /// C behind a W in the accepted drawn jobs, once for the same candidates.
    times: usize,
    /// Cost or set is another than at the usual prices.
    other_costs: usize,
    other_sets: usize,
    /// The cost is 0, and not for want of members.
    for_nothing: usize,
    /// A list of legal terms would be cheaper than the primes, at a connection price above 0.
    undercut: usize,
    /// For each wrong way to charge, how often it would be seen.
    wrong: [usize; WRONG.len()],
    /// What was asked of the answers alone, with W and without.
    held: charged::Held,
    listings: Listings,
}

/// Jobs with W held to those with other prices and without W.
#[derive(Default)]
struct Listings {
    accepted: usize,
    refused: usize,
    pages: usize,
    with_sets: usize,
    products: usize,
    other_cheapest: usize,
}

impl Priced {
    /// A C behind a W, with the irredundant covers.
    pub fn add(&mut self, asked: &Asked, query: &Query, covers: &[u64]) {
        let (prices, candidates) = (asked.prices, &query.candidates);
        let (cost, set) = reference::cheapest(prices, candidates, covers);
        let usual = reference::cheapest(Prices::USUAL, candidates, covers);
        self.times += 1;
        self.other_costs += usize::from(cost != usual.0);
        self.other_sets += usize::from(set != usual.1);
        self.for_nothing += usize::from(cost == 0 && set != 0);
        if prices.connection > 0 {
            let rival = reference::rival_at_any_price(&asked.table, prices, candidates);
            self.undercut += usize::from(rival.is_some_and(|least| least < cost));
        }
        let operands = [prices.term, prices.literal, prices.connection];
        for (i, (_, way)) in WRONG.iter().enumerate() {
            let way = Way::of_terms(*way);
            let by_way = |set: u64| (charge_set(way, operands, candidates, set), set);
            let least = covers.iter().map(|&set| by_way(set)).min();
            self.wrong[i] += usize::from(least != Some((cost, set)));
        }
    }

    /// A job whose C commands were held to the prices.
    pub fn add_held(&mut self, held: &charged::Held) {
        self.held.costs += held.costs;
        self.held.cheapest += held.cheapest;
        self.held.equals += held.equals;
    }

    /// A job that was held to those with other prices.
    pub fn add_listing(&mut self, held: &listing::Held, number: u64) {
        let list = &mut self.listings;
        match number {
            0 => list.accepted += 1,
            _ => list.refused += 1,
        }
        list.pages += held.pages;
        list.with_sets += held.with_sets;
        list.products += held.products;
        list.other_cheapest += usize::from(held.other_cheapest);
    }

    pub fn print(&self) {
        println!(
            "{} cheapest of drawn jobs with W: {} of another cost and {} of another set than at \
             usual prices, {} for nothing, {} that the rival would undercut; wrong charges would \
             be seen {:?} times",
            self.times,
            self.other_costs,
            self.other_sets,
            self.for_nothing,
            self.undercut,
            self.wrong
        );
        let (held, list) = (&self.held, &self.listings);
        println!(
            "{} costs of drawn jobs were held to K6, {} to all irredundant covers, {} of these \
             with an equal; {} accepted and {} refused jobs with W were held to other prices, \
             {} pages, {} of these with sets, {} N, {} jobs with another cheapest there",
            held.costs,
            held.cheapest,
            held.equals,
            list.accepted,
            list.refused,
            list.pages,
            list.with_sets,
            list.products,
            list.other_cheapest
        );
    }

    pub fn complaints(&self) -> Vec<String> {
        let mut list = never(&[
            (self.times, "no drawn job with W has an answered C"),
            (self.other_costs, "prices never changed a cost"),
            (self.other_sets, "prices never changed a cheapest set"),
            (self.for_nothing, "no cheapest with members cost 0"),
            (
                self.undercut,
                "no rival would be cheaper at a connection price above 0",
            ),
            (self.held.costs, "no cost was held to K6"),
            (
                self.held.cheapest,
                "no cheapest was held to all irredundant covers",
            ),
            (self.held.equals, "no cheapest had an equal"),
        ]);
        let zero = (0..WRONG.len()).filter(|&i| self.wrong[i] == 0);
        list.extend(zero.map(|i| format!("it would not be seen: {}", WRONG[i].0)));
        list.extend(self.listings.complaints());
        list
    }
}

impl Listings {
    fn complaints(&self) -> Vec<String> {
        never(&[
            (
                self.accepted,
                "no accepted drawn job with W was held to other prices",
            ),
            (
                self.refused,
                "no refused drawn job with W was held to other prices",
            ),
            (self.pages, "no page was held to other prices"),
            (self.with_sets, "no page with sets was held to other prices"),
            (self.products, "no N was held to other prices"),
            (
                self.other_cheapest,
                "no C answered otherwise at other prices",
            ),
        ])
    }
}
