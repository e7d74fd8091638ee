//! v, σ and ρ (FORMAT, "Terms") for a book and its proposed winners.

use crate::book::Book;
use crate::combinations::{clients_of, Values};
use crate::sheet::holds;

/// What questions 9 to 15 weigh a sheet against.
#[derive(Clone, Debug, PartialEq, Eq)]
pub struct Weights {
    /// The greatest value.
    pub v: i128,
    /// σ by set number; place 0, the empty set, is 0.
    pub sigma: Vec<i128>,
    /// ρ by winner.
    pub rho: Vec<i128>,
}

impl Weights {
    /// For winners that have passed question 8.
    pub fn of(book: &Book, winners: &[usize]) -> Weights {
        Weights::from_values(book, &Values::of(book), winners)
    }

    /// The same with the greatest values of the book at hand.
    pub fn from_values(book: &Book, values: &Values, winners: &[usize]) -> Weights {
        let v = values.greatest_without(0);
        let sets = 0..1_usize << winners.len();
        Weights {
            v,
            sigma: sets
                .map(|set| v - values.greatest_without(clients_of_set(book, winners, set)))
                .collect(),
            rho: winners.iter().map(|&b| rho(book, b)).collect(),
        }
    }

    /// σ(j), one winner's largest surplus.
    pub fn sigma_of_one(&self, j: usize) -> i128 {
        self.sigma[1 << j]
    }
}

/// The clients of a set of winners, as a discard number.
fn clients_of_set(book: &Book, winners: &[usize], set: usize) -> usize {
    let members = (0..winners.len()).filter(|&k| holds(set, k));
    let bids: Vec<usize> = members.map(|k| winners[k]).collect();
    clients_of(book, &bids)
}

/// A winning amount less the reserves of its hours.
fn rho(book: &Book, bid: usize) -> i128 {
    book.bid(bid)
        .map_or(0, |bid| bid.amount - book.reserves(bid))
}
