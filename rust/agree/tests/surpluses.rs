//! σ of every set of clients, by the proved library in one call, against the reference's greatest values.

use generate::{full, random_book, small_book, write, Rng};
use reference::combinations::Values;
use reference::Book;

fn compare(book: &Book) {
    let bytes = write::book(book);
    let table = certifier::surpluses(&bytes);
    let values = Values::of(book);
    let v = values.greatest_without(0);
    assert_eq!((table.number, i128::from(table.value)), (0, v));
    for (set, &sigma) in table.sigma.iter().enumerate() {
        let named = set >> book.status.len() == 0;
        let expected = if named { v - values.greatest_without(set) } else { 0 };
        assert_eq!(i128::from(sigma), expected, "set {set} of {bytes:?}");
    }
}

#[test]
fn of_random_books() {
    let mut rng = Rng::new(5);
    for _ in 0..400 {
        compare(&small_book(&mut rng));
    }
    for _ in 0..40 {
        compare(&random_book(&mut rng));
    }
}

#[test]
fn of_full_books_of_each_kind() {
    for kind in &full::KINDS {
        compare(&kind.book(3));
    }
}

#[test]
fn of_a_refused_book_everything_is_zero() {
    let mut bytes = write::book(&full::KINDS[0].book(3));
    bytes[0] = 2;
    let table = certifier::surpluses(&bytes);
    assert_eq!((table.number, table.value, table.sigma), (1, 0, [0; 64]));
}
