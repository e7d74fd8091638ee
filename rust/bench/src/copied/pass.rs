//! The pass over all sets of clients, from few clients to many.

use super::full::Search;
use super::places::{ROWS, SETS};
use super::row::Row;
use super::taken::Taken;
use super::{client_sets, lanes, rows, trims};
use crate::book::Book;

/// A set's floor: the largest value without one of its clients.
fn floor_of(set: usize, values: &[u64; SETS]) -> u64 {
    let mut floor: u64 = 0;
    let mut left = set;
    while 0 < left {
        let rest = client_sets::others(left);
        floor = floor.max(values[set - (left - rest)]);
        left = rest;
    }
    floor
}

/// The set of the clients that have a bid.
fn held_in(rows: &[Row; ROWS]) -> usize {
    client_sets::of_those(|j| !rows[j + 1].offers().is_empty())
}

/// The value of a set, by what its clients take.
fn value_of(set: usize, taken: Taken, search: Search) -> u64 {
    if lanes::fit(taken.heads) {
        let first = client_sets::first(set);
        return search.head(first).weight + search.values[client_sets::others(set)];
    }
    let floor = floor_of(set, search.values);
    if !lanes::fit(taken.least) {
        return floor;
    }
    search.full(client_sets::count(set), set, taken.least, floor)
}

/// The values of all sets. Clients without a bid are left out.
fn weigh_sets(held: usize, used: u64, rows: &[Row; ROWS], leasts: &[u64; ROWS]) -> [u64; SETS] {
    let mut values = [0u64; SETS];
    let mut taken = [Taken { least: used, heads: used }; SETS];
    for set in 1..SETS {
        let some = set & held;
        if some < set {
            values[set] = values[some];
        } else {
            let first = client_sets::first(set);
            let rest = client_sets::others(set);
            let search = Search { rows, values: &values };
            let least = leasts[first];
            let now = taken[rest].with_client(least, least + search.head(first).hours);
            taken[set] = now;
            values[set] = value_of(set, now, search);
        }
    }
    values
}

/// The greatest value of every set of clients, of whom some are discarded.
pub fn weigh_all(book: &Book, discard: u8) -> [u64; SETS] {
    let used = lanes::used(book.supply);
    let mut rows = [Row::empty(); ROWS];
    rows::fill(book, discard, used, &mut rows);
    let leasts = trims::settle_all(&mut rows);
    let held = held_in(&rows);
    if held == 0 {
        return [0; SETS];
    }
    weigh_sets(held, used, &rows, &leasts)
}
