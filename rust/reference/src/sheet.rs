//! A sheet (FORMAT, "Sheet").

use crate::bytes::Reader;

/// A sheet as its bytes say it. A field is not known to be in range before its question is put.
#[derive(Clone, Debug, PartialEq, Eq)]
pub struct Sheet {
    pub q: i128,
    pub s: i128,
    /// The winners, numbered from 0.
    pub winners: Vec<Winner>,
    pub g: i128,
    /// Y and U by set number. Place 0, the empty set, is no field of the sheet and holds zeros.
    pub sets: Vec<Multipliers>,
}

/// What a sheet says of one winner.
#[derive(Clone, Copy, Debug, Default, PartialEq, Eq)]
pub struct Winner {
    /// The number of the winning bid, counted from 1.
    pub bid: usize,
    pub x: i128,
    pub z: i128,
    pub r: i128,
    pub t: i128,
}

/// What a sheet says of one set of winners.
#[derive(Clone, Copy, Debug, Default, PartialEq, Eq)]
pub struct Multipliers {
    pub y: i128,
    pub u: i128,
}

/// The length of a sheet with w winners, at most six.
pub fn sheet_length(w: usize) -> usize {
    20 + 29 * w + 12 * ((1 << w) - 1)
}

/// Whether winner k is in the set with this number.
pub fn holds(set: usize, k: usize) -> bool {
    (set >> k) & 1 == 1
}

/// The multipliers of each set of w winners; those of the empty set are zero and stand nowhere.
fn read_sets(reader: &mut Reader, w: usize) -> Option<Vec<Multipliers>> {
    let mut sets = vec![Multipliers::default()];
    for _set in 1..1_usize.checked_shl(u32::try_from(w).ok()?)? {
        let y = reader.number(4)?;
        let u = reader.number(8)?;
        sets.push(Multipliers { y, u });
    }
    Some(sets)
}

impl Sheet {
    /// Reads the fields in their order. The caller has put question 6.
    pub fn read(bytes: &[u8]) -> Option<Sheet> {
        let mut reader = Reader::new(bytes);
        let _version = reader.number(1)?;
        let _length = reader.number(2)?;

        let w = reader.count()?;
        let mut winners = Vec::new();
        for _ in 0..w {
            let bid = reader.count()?;
            winners.push(Winner {
                bid,
                ..Winner::default()
            });
        }

        let q = reader.number(4)?;
        let s = reader.number(4)?;

        for winner in &mut winners {
            winner.x = reader.number(8)?;
            winner.z = reader.number(4)?;
            winner.r = reader.number(8)?;
            winner.t = reader.number(8)?;
        }

        let g = reader.signed_64()?;

        let sets = read_sets(&mut reader, w)?;

        Some(Sheet {
            q,
            s,
            winners,
            g,
            sets,
        })
    }

    /// How many winners there are.
    pub fn w(&self) -> usize {
        self.winners.len()
    }

    /// The winners' bid numbers in the sheet's order.
    pub fn bids(&self) -> Vec<usize> {
        self.winners.iter().map(|winner| winner.bid).collect()
    }

    /// The numbers of all non-empty sets of winners.
    pub fn set_numbers(&self) -> std::ops::Range<usize> {
        1..self.sets.len()
    }

    /// The sum of the discount numerators of a set.
    pub fn x_sum(&self, set: usize) -> i128 {
        let members = (0..self.w()).filter(|&k| holds(set, k));
        members.map(|k| self.winners[k].x).sum()
    }

    /// The sum of a multiplier over all sets that hold winner k.
    pub fn sum_over_sets_holding(&self, k: usize, field: fn(&Multipliers) -> i128) -> i128 {
        let sets = self.set_numbers().filter(|&set| holds(set, k));
        sets.map(|set| field(&self.sets[set])).sum()
    }
}
