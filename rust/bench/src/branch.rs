//! A branch and bound in Rust over bids sorted by amount: the best bids first, the amounts still to come as the bound.

use crate::book::{fits, rest, Book};

struct Bid {
    client: usize,
    hours: [u8; 4],
    amount: u64,
}

/// From bid `next` on, with the clients in `free` and the hours left; `found` is the best so far.
fn branch(bids: &[Bid], next: usize, free: u8, left: [u8; 4], value: u64, found: &mut u64) {
    *found = (*found).max(value);
    // the bids fall by amount, so the first of each free client is its largest
    let mut bound = value;
    let mut open = free;
    for bid in &bids[next..] {
        if open == 0 || *found < bound {
            break;
        }
        if open >> bid.client & 1 == 1 {
            open &= !(1 << bid.client);
            bound += bid.amount;
        }
    }
    if bound <= *found {
        return;
    }
    for (i, bid) in bids.iter().enumerate().skip(next) {
        if free >> bid.client & 1 == 1 && fits(bid.hours, left) {
            let left = rest(bid.hours, left);
            branch(bids, i + 1, free & !(1 << bid.client), left, value + bid.amount, found);
        }
        if value + bid.amount * u64::from(free.count_ones()) <= *found {
            return;
        }
    }
}

/// The greatest value of a sound book with clients discarded.
pub fn greatest_value(book: &Book, discard: u8) -> u64 {
    let mut bids = Vec::with_capacity(book.bids);
    for i in 0..book.bids {
        let client = usize::from(book.client[i]);
        if book.stays(client, discard) {
            bids.push(Bid { client, hours: book.hours[i], amount: u64::from(book.amount[i]) });
        }
    }
    bids.sort_unstable_by(|a, b| b.amount.cmp(&a.amount));
    let free = bids.iter().fold(0, |set, bid| set | 1 << bid.client);
    let mut found = 0;
    branch(&bids, 0, free, book.supply, 0, &mut found);
    found
}
