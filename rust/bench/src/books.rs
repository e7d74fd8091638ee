//! The full books that are measured, as bytes: six clients of eight bids each over four kinds of hour, of seven kinds of book.

use generate::{full, write};

/// How many books a turn goes through: so many that a processor cannot learn their branches by heart.
pub const MANY: u64 = 64;

/// A kind of full book.
#[derive(Clone, Copy)]
pub struct Kind {
    of: &'static full::Kind,
    pub name: &'static str,
    /// A seed, found by trying, for which six clients win; where no bid fits none can.
    pub six_winners: u64,
}

const fn kind(place: usize, six_winners: u64) -> Kind {
    let of = &full::KINDS[place];
    Kind { of, name: of.name, six_winners }
}

pub const LOOSE: Kind = kind(0, 1);
pub const TIGHT: Kind = kind(3, 64129);

pub const KINDS: [Kind; 7] =
    [LOOSE, kind(1, 19), kind(2, 1), TIGHT, kind(4, 142), kind(5, 1), kind(6, 1)];

impl Kind {
    pub fn book(&self, seed: u64) -> Vec<u8> {
        write::book(&self.of.book(seed))
    }

    /// The books of the first so many seeds.
    pub fn books(&self, count: u64) -> Vec<Vec<u8>> {
        (1..=count).map(|seed| self.book(seed)).collect()
    }
}
