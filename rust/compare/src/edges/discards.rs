//! Edges of question 16, and the greatest values of call A's book.

use super::books::book_of;
use super::{with, Value};
use generate::by_hand::{book_a, book_i, sheet_a};

pub fn values() -> Vec<Value> {
    let mut values = of_book_a();
    values.extend(of_others());
    values.extend(in_order());
    values
}

fn value(book: &[u8], discard: u8, answer: (u8, u64)) -> Value {
    let book = book.to_vec();
    Value {
        book,
        discard,
        answer,
    }
}

/// All eight sets of clients, and bytes that name others.
fn of_book_a() -> Vec<Value> {
    let worth = [110, 70, 70, 70, 110, 50, 60, 0];
    let allowed = (0..).zip(worth);
    let refused = [8, 15, 128, 255].map(|discard| value(&book_a(), discard, (16, 0)));
    allowed
        .map(|(discard, worth)| value(&book_a(), discard, (0, worth)))
        .chain(refused)
        .collect()
}

fn of_others() -> Vec<Value> {
    let withdrawn = with(&book_a(), 10, &[1]);
    let six = book_of(6, &[1, 2, 3, 4, 5, 6]);
    vec![
        value(&book_i(), 0, (0, 0)),
        value(&with(&book_a(), 4, &[0]), 0, (0, 0)),
        // A withdrawn client may be named; bytes after the book are not looked at.
        value(&withdrawn, 4, (0, 110)),
        value(&withdrawn, 3, (0, 0)),
        value(&sheet_a().after(&book_a()), 4, (0, 110)),
        // Six clients use six bits.
        value(&six, 0, (0, 42)),
        value(&six, 32, (0, 35)),
        value(&six, 63, (0, 0)),
        value(&six, 64, (16, 0)),
        value(&six, 128, (16, 0)),
    ]
}

/// 1 to 5 come first.
fn in_order() -> Vec<Value> {
    vec![
        value(&[], 255, (1, 0)),
        value(&book_a()[..29], 255, (2, 0)),
        value(&with(&book_a(), 4, &[201]), 255, (3, 0)),
        value(&with(&book_a(), 12, &[0]), 255, (4, 0)),
        value(&with(&book_a(), 14, &[0, 0, 0, 9]), 255, (5, 0)),
    ]
}
