//! A book with its winners and their discounts as fractions, each with its own denominator.

use compare::Example;
use generate::fraction::{common_multiple, Fraction};
use reference::sheet::holds;
use reference::{admissible, Book, Discounts, Weights};
use std::cmp::Ordering;

pub struct Pricing {
    pub book: Book,
    pub weights: Weights,
    pub winners: Vec<usize>,
    pub x: Vec<Fraction>,
}

impl Pricing {
    /// That of an accepted sheet.
    pub fn of(example: &Example) -> Pricing {
        let sheet = &example.sheet;
        let x = sheet.winners.iter();
        Pricing {
            book: example.book.clone(),
            weights: example.weights.clone(),
            winners: sheet.bids(),
            x: x.map(|winner| Fraction::new(winner.x, sheet.q)).collect(),
        }
    }

    pub fn w(&self) -> usize {
        self.winners.len()
    }

    /// Whether other discounts of these winners are admissible.
    pub fn admits(&self, x: &[Fraction]) -> bool {
        let q = common_multiple(x.iter().map(|x| x.bottom));
        let x: Vec<i128> = x.iter().map(|x| x.scaled(q)).collect();
        admissible(&self.book, &self.winners, &Discounts { q, x: &x })
    }

    /// What σ of a set leaves over.
    pub fn room(&self, set: usize) -> Fraction {
        let members = (0..self.w()).filter(|&k| holds(set, k));
        let sum: Fraction = members.map(|k| self.x[k]).sum();
        Fraction::whole(self.weights.sigma[set]) - sum
    }

    /// How other discounts compare with these: greater if their sum is greater, or equal and they
    /// lie nearer to the largest surpluses.
    pub fn compare(&self, x: &[Fraction]) -> Ordering {
        let sum = |x: &[Fraction]| x.iter().copied().sum::<Fraction>();
        let nearer = || self.distance(&self.x).cmp(&self.distance(x));
        sum(x).cmp(&sum(&self.x)).then_with(nearer)
    }

    /// The total of squared distances from the largest surpluses.
    fn distance(&self, x: &[Fraction]) -> Fraction {
        let each = x.iter().enumerate().map(|(j, &x)| {
            let away = Fraction::whole(self.weights.sigma_of_one(j)) - x;
            away * away
        });
        each.sum()
    }
}
