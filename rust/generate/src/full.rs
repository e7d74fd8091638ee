//! Full books, six clients of eight bids each over four kinds of hour, of seven kinds.

use crate::planted::set_reserves;
use crate::Rng;
use reference::{Bid, Book};

/// A kind of full book. Its bids ask for 1 to 30 hours of each kind.
pub struct Kind {
    pub name: &'static str,
    supply: i128,
    /// A bid's amount, from its hours in all and a random number below a million.
    amount: fn(i128, i128) -> i128,
}

/// The seven kinds.
pub const KINDS: [Kind; 7] = [
    Kind {
        name: "loose",
        supply: 200,
        amount: |_, random| 1 + random,
    },
    Kind {
        name: "half fits",
        supply: 60,
        amount: |_, random| 1 + random,
    },
    Kind {
        name: "near-ties",
        supply: 60,
        amount: |_, random| 500_000 + random % 5_000,
    },
    Kind {
        name: "tight",
        supply: 40,
        amount: |_, random| 1 + random,
    },
    Kind {
        name: "amounts follow hours",
        supply: 60,
        amount: |hours, random| 5_000 * hours + random % 5_000,
    },
    Kind {
        name: "equal amounts",
        supply: 60,
        amount: |_, _| 500_000,
    },
    Kind {
        name: "none fits",
        supply: 0,
        amount: |_, random| 1 + random,
    },
];

impl Kind {
    /// The book of this kind that the seed gives, with everybody standing and no reserves.
    pub fn book(&self, seed: u64) -> Book {
        let mut of_hours = Rng::new(seed);
        let mut of_amounts = Rng::new(seed + 1);
        let bid = |i: usize| {
            let hours: Vec<i128> = (0..4).map(|_| of_hours.range(1, 30)).collect();
            let amount = (self.amount)(hours.iter().sum(), of_amounts.range(0, 999_999));
            Bid {
                client: i % 6 + 1,
                hours,
                amount,
            }
        };
        Book {
            supply: vec![self.supply; 4],
            reserve: vec![0; 4],
            status: vec![0; 6],
            bids: (0..48).map(bid).collect(),
        }
    }
}

/// The same book with reserves, some clients withdrawn and some bids made equal to others.
pub fn varied(rng: &mut Rng, mut book: Book) -> Book {
    book.status.fill_with(|| i128::from(rng.chance(20)));
    for place in 6..book.bids.len() {
        if rng.chance(10) {
            book.bids[place] = book.bids[place - 6].clone();
        }
    }
    set_reserves(rng, &mut book);
    book
}
