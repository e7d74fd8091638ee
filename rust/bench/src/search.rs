//! The same search as one would write it in Rust, with its bounds checks: one pass over the sets of clients, from few to many. A set's
//! value is that of the set without one of its clients, or that of the best combination with a bid of each. Sets are numbers, in which
//! bit c - 1 is client c.

use crate::book::{self, Book};
use crate::lanes::{fits, used};
use crate::rows::{rows, Row};
use crate::surpluses::Surpluses;

const SETS: usize = 64;
/// The set of all clients.
const ALL: usize = SETS - 1;

/// The first client of a set, counted from 0, and the set without it.
#[inline(always)]
fn split(set: usize) -> (usize, usize) {
    (set.trailing_zeros() as usize, set & (set - 1))
}

/// The largest value without one of a set's clients.
fn floor_of(set: usize, values: &[u64; SETS]) -> u64 {
    let mut floor = 0;
    let mut left = set;
    while 0 < left {
        let rest = left & (left - 1);
        floor = floor.max(values[set - (left - rest)]);
        left = rest;
    }
    floor
}

/// The same search for one client: as weights fall, the first of its bids that fits is its best.
fn last(row: &Row, used: u64, floor: u64) -> u64 {
    row.bids().iter().find(|bid| fits(used + bid.hours)).map_or(floor, |bid| floor.max(bid.weight))
}

/// The same for two clients.
fn pair(rows: &[Row; 6], values: &[u64; SETS], set: usize, used: u64, floor: u64) -> u64 {
    let (client, rest) = split(set);
    let (other, _) = split(rest);
    let mut top = floor;
    for bid in rows[client].bids() {
        let after = used + bid.hours;
        if fits(after) {
            if bid.weight + values[rest] <= top {
                return top;
            }
            top = bid.weight + last(&rows[other], after, top.saturating_sub(bid.weight));
        }
    }
    top
}

/// The value of the best combination with a bid of each client of a set, or the floor where that is no less. The value of the clients still
/// to come is a ceiling. With short cuts the last two clients are searched without a further call, as in ours.
fn search<const CUTS: bool>(rows: &[Row; 6], values: &[u64; SETS], set: usize, used: u64, floor: u64) -> u64 {
    let (client, rest) = split(set);
    if CUTS && rest.is_power_of_two() {
        return pair(rows, values, set, used, floor);
    }
    let ceiling = values[rest];
    let mut top = floor;
    for bid in rows[client].bids() {
        if bid.weight + ceiling <= top {
            return top;
        }
        let after = used + bid.hours;
        if fits(after) {
            if rest == 0 {
                return bid.weight;
            }
            let base = top.saturating_sub(bid.weight);
            let more = if CUTS && split(rest).1.is_power_of_two() {
                pair(rows, values, rest, after, base)
            } else {
                search::<CUTS>(rows, values, rest, after, base)
            };
            top = bid.weight + more;
        }
    }
    top
}

/// The greatest value of each set of clients.
pub struct Values([u64; SETS]);

impl Values {
    pub fn without(&self, discard: u8) -> u64 {
        self.0[ALL - usize::from(discard)]
    }
}

/// The values with clients discarded for good. Clients without a bid that can be taken are left out. With short cuts no set is searched
/// whose clients' heaviest bids fit together, as in ours.
pub fn values_by<const CUTS: bool>(book: &Book, discard: u8) -> Values {
    let used = used(book.supply);
    let rows = rows(book, used, discard);
    let held = (0..6).fold(0, |set, client| set | usize::from(!rows[client].bids().is_empty()) << client);
    let mut values = [0; SETS];
    let mut taken = [used; SETS];
    let mut heads = [used; SETS];
    for set in 1..SETS {
        if set & held < set {
            values[set] = values[set & held];
            continue;
        }
        let (client, rest) = split(set);
        let least = rows[client].least;
        taken[set] = taken[rest] + if fits(taken[rest]) { least } else { 0 };
        if CUTS {
            let heaviest = rows[client].bids()[0];
            heads[set] = heads[rest] + if fits(heads[rest]) { least + heaviest.hours } else { 0 };
            if fits(heads[set]) {
                values[set] = heaviest.weight + values[rest];
                continue;
            }
        }
        let floor = floor_of(set, &values);
        values[set] = if fits(taken[set]) { search::<CUTS>(&rows, &values, set, taken[set], floor) } else { floor };
    }
    Values(values)
}

/// The values by the search as it is, with calls down to the last client.
pub fn values(book: &Book, discard: u8) -> Values {
    values_by::<false>(book, discard)
}

/// The greatest value with clients discarded.
pub fn greatest(book: &Book, discard: u8) -> u64 {
    values(book, discard).without(0)
}

/// The answer that ours gives, handed out as ours is: by a call.
#[inline(never)]
pub fn surpluses<const CUTS: bool>(book: &Book) -> Surpluses {
    let values = values_by::<CUTS>(book, 0);
    Surpluses::of(std::array::from_fn(|discard| values.without(discard as u8)))
}

/// The greatest value of any bytes, as ours: questions 1 to 5 and 16 first.
pub fn asked_value(bytes: &[u8], discard: u8) -> Result<u64, u8> {
    book::read_with(bytes, discard).map(|book| greatest(&book, discard))
}
