//! The clients whose bids may be taken, as a set.

use super::{client_sets, numbers};
use crate::book::Book;

/// Whether a client stands, as crates/book has it.
fn is_standing(book: &Book, client: usize) -> bool {
    if !((1 <= client) & (client <= book.clients)) {
        return false;
    }
    book.caps[client - 1] != 0
}

/// The clients that stand and are not discarded.
pub fn kept_in(book: &Book, discard: u8) -> usize {
    client_sets::of_those(|j| is_standing(book, j + 1) & !numbers::has(usize::from(discard), j))
}
