//! The two sides of questions 9 to 15 over a sheet and its weights, each as exact numbers.

use reference::combinations::value;
use reference::sheet::holds;
use reference::{Book, Sheet, Weights};

/// The sheet of a call and what it is weighed against.
pub struct Sums<'a> {
    pub sheet: &'a Sheet,
    pub weights: &'a Weights,
}

/// The two sides of question 13, and what the left one is made of.
pub struct Totals {
    pub of_sets: i128,
    pub of_winners: i128,
    pub discounts: i128,
    pub left: i128,
    pub right: i128,
}

impl Sums<'_> {
    /// Question 9: how much the winners' value is short of v.
    pub fn short_of_v(&self, book: &Book) -> i128 {
        self.weights.v - value(book, &self.sheet.bids())
    }

    /// Question 10: q ρ(j).
    pub fn q_rho(&self, j: usize) -> i128 {
        self.sheet.q * self.weights.rho[j]
    }

    /// q ρ(j) less X.
    pub fn reserve_slack(&self, j: usize) -> i128 {
        self.q_rho(j) - self.sheet.winners[j].x
    }

    /// Question 11: q σ(L).
    pub fn q_sigma(&self, set: usize) -> i128 {
        self.sheet.q * self.weights.sigma[set]
    }

    /// q σ(L) less the sum of X.
    pub fn set_slack(&self, set: usize) -> i128 {
        self.q_sigma(set) - self.sheet.x_sum(set)
    }

    /// Question 12: the Y of all sets that hold a winner.
    pub fn y_of_sets(&self, j: usize) -> i128 {
        self.sheet.sum_over_sets_holding(j, |set| set.y)
    }

    /// Z and these Y together, less s.
    pub fn cover_slack(&self, j: usize) -> i128 {
        self.sheet.winners[j].z + self.y_of_sets(j) - self.sheet.s
    }

    /// Question 13.
    pub fn totals(&self) -> Totals {
        let (sheet, weights) = (self.sheet, self.weights);
        let of_sets: i128 = sheet
            .set_numbers()
            .map(|set| sheet.sets[set].y * weights.sigma[set])
            .sum();
        let of_winners: i128 = (0..sheet.w())
            .map(|j| sheet.winners[j].z * weights.rho[j])
            .sum();
        let discounts: i128 = sheet.winners.iter().map(|winner| winner.x).sum();
        Totals {
            of_sets,
            of_winners,
            discounts,
            left: sheet.q * (of_sets + of_winners),
            right: sheet.s * discounts,
        }
    }

    /// Question 14: q σ(j) - X.
    pub fn distance(&self, j: usize) -> i128 {
        self.set_slack(1 << j)
    }

    /// The U of all sets that hold a winner.
    pub fn u_of_sets(&self, j: usize) -> i128 {
        self.sheet.sum_over_sets_holding(j, |set| set.u)
    }

    /// G + U + R - T.
    pub fn multipliers(&self, j: usize) -> i128 {
        let winner = &self.sheet.winners[j];
        self.sheet.g + self.u_of_sets(j) + winner.r - winner.t
    }
}

/// The winners of a set, with a blank between them.
pub fn members(set: usize, w: usize) -> String {
    let members: Vec<String> = (0..w)
        .filter(|&k| holds(set, k))
        .map(|k| k.to_string())
        .collect();
    members.join(" ")
}

/// Bid numbers with commas between them.
pub fn numbers(bids: &[usize]) -> String {
    match bids.is_empty() {
        true => "none".to_string(),
        false => bids
            .iter()
            .map(|bid| bid.to_string())
            .collect::<Vec<_>>()
            .join(", "),
    }
}
