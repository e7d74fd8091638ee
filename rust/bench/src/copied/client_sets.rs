//! Sets of clients as numbers: bit c - 1 stands for client c.

use super::places::CLIENTS;

/// The first client of a set that is not empty.
pub fn first(set: usize) -> usize {
    set.trailing_zeros() as usize + 1
}

/// The set of the places below 6 of which a test holds.
pub fn of_those<F: Fn(usize) -> bool>(is_in: F) -> usize {
    let mut set = 0;
    for j in (0..CLIENTS).rev() {
        set = usize::from(is_in(j)) + 2 * set;
    }
    set
}

/// How many clients a set has.
pub fn count(set: usize) -> usize {
    set.count_ones() as usize
}

/// The set without its first client.
pub fn others(set: usize) -> usize {
    set & (set - 1)
}
