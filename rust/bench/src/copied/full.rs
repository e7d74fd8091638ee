//! The greatest value of a set of clients where nobody passes, by a search on the clients left.

use super::places::{ROWS, ROW_BIDS, SETS};
use super::row::{Offer, Row};
use super::{client_sets, lanes};

/// What the search looks up: the rows by client, and by set the values of the clients left, which are ceilings.
#[derive(Clone, Copy)]
pub struct Search<'a> {
    pub rows: &'a [Row; ROWS],
    pub values: &'a [u64; SETS],
}

impl<'a> Search<'a> {
    fn row(self, client: usize) -> &'a [Offer] {
        self.rows[client].offers()
    }

    /// A client's first and heaviest offer.
    pub fn head(self, client: usize) -> Offer {
        self.row(client)[0]
    }

    /// The search for the last client: the first of its bids that fits is its best.
    fn last_bid(self, set: usize, used: u64, floor: u64) -> u64 {
        let client = client_sets::first(set);
        for offer in self.row(client) {
            let taken = used + offer.hours;
            if lanes::fit(taken) {
                return floor.max(offer.weight);
            }
        }
        floor
    }

    /// The search for the last two.
    fn last_pair(self, set: usize, used: u64, floor: u64) -> u64 {
        let client = client_sets::first(set);
        let rest = client_sets::others(set);
        let most = self.values[rest];
        let offers = self.row(client);
        let mut top = floor;
        for d in 0..ROW_BIDS {
            if offers.len() <= d {
                return top;
            }
            let offer = offers[d];
            let after = used + offer.hours;
            if lanes::fit(after) {
                if offer.weight + most <= top {
                    return top;
                }
                top = offer.weight + self.last_bid(rest, after, top.saturating_sub(offer.weight));
            }
        }
        top
    }

    /// The search for a set of so many clients.
    pub fn full(self, ahead: usize, set: usize, used: u64, floor: u64) -> u64 {
        if ahead == 1 {
            return self.last_bid(set, used, floor);
        }
        if ahead == 2 {
            return self.last_pair(set, used, floor);
        }
        let client = client_sets::first(set);
        let rest = client_sets::others(set);
        let ceiling = self.values[rest];
        let mut top = floor;
        for offer in self.row(client) {
            let weight = offer.weight;
            if weight + ceiling <= top {
                return top;
            }
            let after = used + offer.hours;
            if lanes::fit(after) {
                let base = top.saturating_sub(weight);
                let more = if ahead == 3 {
                    self.last_pair(rest, after, base)
                } else {
                    self.full(ahead - 1, rest, after, base)
                };
                top = weight + more;
            }
        }
        top
    }
}
