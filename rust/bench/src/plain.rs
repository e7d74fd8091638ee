//! The plain recursion on the clients left, in Rust, with its bounds checks.

use crate::book::{fits, rest, Book};

fn weigh(book: &Book, ahead: usize, client: usize, discard: u8, left: [u8; 4]) -> u64 {
    if ahead == 0 {
        return 0;
    }
    let on = book.stays(client, discard);
    let mut top = weigh(book, ahead - 1, client + 1, discard, left);
    for bid in 0..book.bids {
        if usize::from(book.client[bid]) == client && on && fits(book.hours[bid], left) {
            let more = weigh(book, ahead - 1, client + 1, discard, rest(book.hours[bid], left));
            top = top.max(u64::from(book.amount[bid]) + more);
        }
    }
    top
}

/// The greatest value of a sound book with clients discarded.
pub fn greatest_value(book: &Book, discard: u8) -> u64 {
    weigh(book, book.clients, 1, discard, book.supply)
}
