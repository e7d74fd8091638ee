//! Where a call fails questions 9 to 15, which weigh the sheet against v, σ and ρ.

use crate::place::Place;
use crate::range::outside;
use crate::sums::{members, numbers, Sums};
use reference::combinations::{each_combination, value};
use reference::Book;

/// A call whose winners are a combination of its sound book.
pub struct About<'a> {
    pub book: &'a Book,
    pub sums: &'a Sums<'a>,
}

impl About<'_> {
    /// Question 9, with one combination that is worth v.
    pub fn value(&self) -> Vec<Place> {
        let (short, v) = (self.sums.short_of_v(self.book), self.sums.weights.v);
        let Some(by) = outside(v - short, v, v) else {
            return Vec::new();
        };
        let bids = numbers(&self.sums.sheet.bids());
        let words = format!(
            "the winners' bids ({bids}) are worth {}, {short} less than v, which is {v}",
            v - short
        );
        let better = self.worth_v().map(|bids| {
            let bids = numbers(&bids);
            Place::new(format!("worth {v} together are the bids {bids}")).with("is", v)
        });
        [Place::new(words).beyond(&by)]
            .into_iter()
            .chain(better)
            .collect()
    }

    fn worth_v(&self) -> Option<Vec<usize>> {
        let mut found = None;
        each_combination(self.book, |bids| {
            if found.is_none() && value(self.book, bids) == self.sums.weights.v {
                found = Some(bids.to_vec());
            }
        });
        found
    }

    /// Question 10.
    pub fn reserves(&self) -> Vec<Place> {
        self.winners(|j| {
            let by = outside(self.sums.sheet.winners[j].x, 0, self.sums.q_rho(j))?;
            let words = format!(
                "X is {}, {} more than q ρ = {} × {} = {}",
                by.value,
                by.by(),
                self.sums.sheet.q,
                self.sums.weights.rho[j],
                by.bound
            );
            Some(Place::new(words).beyond(&by))
        })
    }

    /// Question 11.
    pub fn sets(&self) -> Vec<Place> {
        self.all_sets(|set| {
            let by = outside(self.sums.sheet.x_sum(set), 0, self.sums.q_sigma(set))?;
            let words = format!(
                "the sum of X is {}, {} more than q σ = {} × {} = {}",
                by.value,
                by.by(),
                self.sums.sheet.q,
                self.sums.weights.sigma[set],
                by.bound
            );
            Some(Place::new(words).beyond(&by))
        })
    }

    /// Question 12.
    pub fn covers(&self) -> Vec<Place> {
        self.winners(|j| {
            let (z, y) = (self.sums.sheet.winners[j].z, self.sums.y_of_sets(j));
            let by = outside(z + y, self.sums.sheet.s, i128::MAX)?;
            let words = format!(
                "Z {z} and the Y of its sets, {y}, make {}, {} less than s, which is {}",
                by.value,
                by.by(),
                by.bound
            );
            Some(Place::new(words).beyond(&by))
        })
    }

    /// Question 13: both sides, and the terms of the left one.
    pub fn totals(&self) -> Vec<Place> {
        let t = self.sums.totals();
        if t.left == t.right {
            return Vec::new();
        }
        let (q, s) = (self.sums.sheet.q, self.sums.sheet.s);
        let more = if t.left > t.right { "first" } else { "second" };
        let by = (t.left - t.right).abs();
        let words = format!(
            "q (sum of Y σ + sum of Z ρ) = {q} × ({} + {}) = {}\n\
             s (sum of X) = {s} × {} = {}\n\
             the {more} is {by} more; the terms of the first that are not zero:",
            t.of_sets, t.of_winners, t.left, t.discounts, t.right
        );
        let place = Place::new(words)
            .with("left", t.left)
            .with("right", t.right);
        let mut places = vec![place.with("by", by)];
        places.extend(self.terms());
        places
    }

    fn terms(&self) -> Vec<Place> {
        let (sheet, weights) = (self.sums.sheet, self.sums.weights);
        let of_sets = self.all_sets(|set| {
            let (y, sigma) = (sheet.sets[set].y, weights.sigma[set]);
            let place =
                Place::new(format!("Y {y} × σ {sigma} = {}", y * sigma)).with("is", y * sigma);
            (y * sigma != 0).then_some(place)
        });
        let of_winners = self.winners(|j| {
            let (z, rho) = (sheet.winners[j].z, weights.rho[j]);
            let place = Place::new(format!("Z {z} × ρ {rho} = {}", z * rho)).with("is", z * rho);
            (z * rho != 0).then_some(place)
        });
        let terms = of_sets.into_iter().chain(of_winners);
        let indented = terms.map(|place| Place {
            words: format!("  {}", place.words),
            ..place
        });
        indented.collect()
    }

    /// Question 14.
    pub fn distances(&self) -> Vec<Place> {
        self.winners(|j| {
            let (left, right) = (self.sums.distance(j), self.sums.multipliers(j));
            let winner = &self.sums.sheet.winners[j];
            let by = (left - right).abs();
            let words = format!(
                "q σ - X = {} - {} = {left}, but G {} + U {} + R {} - T {} = {right}; they differ by {by}",
                self.sums.q_sigma(1 << j),
                winner.x,
                self.sums.sheet.g,
                self.sums.u_of_sets(j),
                winner.r,
                winner.t,
            );
            let place = Place::new(words).with("left", left).with("right", right);
            (left != right).then(|| place.with("by", by))
        })
    }

    /// Question 15: U of the sets, then R and T of the winners.
    pub fn pairs(&self) -> Vec<Place> {
        let sheet = self.sums.sheet;
        let pair = |name: &str, is: i128, slack: i128, words: String| {
            let place = Place::new(format!("{name} is {is}, but {words}"));
            (is != 0 && slack != 0).then(|| place.with("is", is).with("by", slack))
        };
        let of_sets = self.all_sets(|set| {
            let (u, slack) = (sheet.sets[set].u, self.sums.set_slack(set));
            pair(
                "U",
                u,
                slack,
                format!("the sum of X is {slack} less than q σ"),
            )
        });
        let of_reserves = self.winners(|j| {
            let (r, slack) = (sheet.winners[j].r, self.sums.reserve_slack(j));
            pair("R", r, slack, format!("X is {slack} less than q ρ"))
        });
        let of_zeros = self.winners(|j| {
            let (t, x) = (sheet.winners[j].t, sheet.winners[j].x);
            pair("T", t, x, format!("X is {x} and not 0"))
        });
        [of_sets, of_reserves, of_zeros].concat()
    }

    /// What is found for each winner, after its name.
    fn winners(&self, found: impl Fn(usize) -> Option<Place>) -> Vec<Place> {
        let winners = 0..self.sums.sheet.w();
        let named = winners.filter_map(|j| {
            let number = self.sums.sheet.winners[j].bid;
            let client = self.book.bid(number).map_or(0, |bid| bid.client);
            let place = found(j)?
                .of("winner", j)
                .of("bid", number)
                .of("client", client);
            let words = format!(
                "winner {j} (bid {number} of client {client}): {}",
                place.words
            );
            Some(Place { words, ..place })
        });
        named.collect()
    }

    /// What is found for each set, after its name.
    fn all_sets(&self, found: impl Fn(usize) -> Option<Place>) -> Vec<Place> {
        let sets = self.sums.sheet.set_numbers();
        let named = sets.filter_map(|set| {
            let place = found(set)?.of("set", set);
            let words = format!("{}: {}", self.set_name(set), place.words);
            Some(Place { words, ..place })
        });
        named.collect()
    }

    fn set_name(&self, set: usize) -> String {
        let who = members(set, self.sums.sheet.w());
        match set.count_ones() {
            1 => format!("set {set} (winner {who})"),
            _ => format!("set {set} (winners {who})"),
        }
    }
}
