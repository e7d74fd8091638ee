//! The old search, which ours was before, as one would write it in Rust, with its bounds checks: each set of clients is searched by itself.
//! Links, weights and hours are made once; then for each set its ceilings, which are sums of largest weights, and the search over the
//! clients left, from a floor. One test tells whether a bid fits and can raise the best.

use crate::book::{self, Book};
use crate::lanes::{fits, guards, in_lanes, used};
use crate::surpluses::Surpluses;

const NONE: usize = 48;

/// What the search looks up, whoever is discarded. Clients are numbered by how many there are from each to the sixth: the turns left.
struct Lookups {
    weights: [u64; 48],
    hours: [u64; 48],
    links: [usize; 56],
    most: [u64; 7],
}

/// A bid that asks for more than there is goes to turn 0, which nobody has.
fn look_up(book: &Book, used: u64) -> Lookups {
    let mut l = Lookups { weights: [0; 48], hours: [0; 48], links: [NONE; 56], most: [0; 7] };
    for i in (0..book.bids).rev() {
        l.weights[i] = u64::from(book.amount[i]);
        l.hours[i] = in_lanes(book.hours[i]);
        let turn = if fits(used + l.hours[i]) { 7 - usize::from(book.client[i]) } else { 0 };
        l.links[i] = l.links[48 + turn];
        l.links[48 + turn] = i;
        l.most[turn] = l.most[turn].max(l.weights[i]);
    }
    for (client, &cap) in book.caps[..book.clients].iter().enumerate() {
        if cap == 0 {
            l.most[6 - client] = 0;
        }
    }
    l
}

/// By the clients left, the sum of the largest weights of those that stay.
fn ceilings(discard: u8, most: &[u64; 7]) -> Tops {
    let mut tops = [0; 7];
    for turn in 1..7 {
        let own = if (discard >> (6 - turn)) & 1 == 0 { most[turn] } else { 0 };
        tops[turn] = tops[turn - 1] + own;
    }
    tops
}

type Tops = [u64; 7];

fn search(l: &Lookups, tops: &Tops, ahead: usize, used: u64, floor: u64) -> u64 {
    if tops[ahead] <= floor {
        return floor;
    }
    let ceiling = tops[ahead - 1];
    let mut top = floor;
    let mut i = if ceiling < tops[ahead] { l.links[48 + ahead] } else { NONE };
    while i < NONE {
        let weight = l.weights[i];
        let after = used + l.hours[i];
        let short = u64::from(weight + ceiling <= top);
        if guards(after) + short == 0 {
            let more = search(l, tops, ahead - 1, after, top.saturating_sub(weight));
            top = top.max(weight + more);
        }
        i = l.links[i];
    }
    search(l, tops, ahead - 1, used, top)
}

fn greatest_by(lookups: &Lookups, used: u64, discard: u8) -> u64 {
    let tops = ceilings(discard, &lookups.most);
    search(lookups, &tops, 6, used, 0)
}

/// The greatest value with clients discarded.
pub fn greatest(book: &Book, discard: u8) -> u64 {
    let used = used(book.supply);
    greatest_by(&look_up(book, used), used, discard)
}

/// The greatest values with each of the sets of clients discarded, looked up once.
pub fn greatest_of(book: &Book, discards: impl Iterator<Item = u8>) -> [u64; 64] {
    let used = used(book.supply);
    let lookups = look_up(book, used);
    let mut values = [0; 64];
    for (value, discard) in values.iter_mut().zip(discards) {
        *value = greatest_by(&lookups, used, discard);
    }
    values
}

/// The answer that ours gives, handed out as ours is: by a call.
#[inline(never)]
pub fn surpluses(book: &Book) -> Surpluses {
    Surpluses::of(greatest_of(book, 0..64))
}

/// The greatest value of any bytes, as ours: questions 1 to 5 and 16 first.
pub fn asked_value(bytes: &[u8], discard: u8) -> Result<u64, u8> {
    book::read_with(bytes, discard).map(|book| greatest(&book, discard))
}
