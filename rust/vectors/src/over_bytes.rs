//! Lines over the bytes of a book: many greatest values at once, and tables of σ.

use crate::Line;
use generate::by_hand::{book_a, book_i, hex};
use generate::{full, write};
use reference::Book;

/// Seven bids of six clients over two kinds; client 3 is withdrawn.
pub fn six_clients() -> Vec<u8> {
    hex("01 0043 02 03 0005 02 0007 06 00 00 01 00 00 00 07
         01 01 00 00000028  02 01 01 0000003C  02 00 01 0000001F  03 01 00 00000063
         04 01 00 00000025  05 02 00 0000004D  06 01 01 0000003A")
}

/// A full book: four kinds, six clients of eight bids each, of which some fit together.
pub fn full_book() -> Book {
    full::KINDS[3].book(1)
}

/// A byte of it changed.
fn with(mut book: Vec<u8>, at: usize, byte: u8) -> Vec<u8> {
    book[at] = byte;
    book
}

pub fn lines() -> Vec<Line> {
    let table = |label: &str, book: Vec<u8>| Line::new('T', label, &[&book]);
    vec![
        Line::new('D', "six clients, every discard byte", &[&six_clients()]),
        Line::new('D', "bad version, every discard byte", &[&with(book_a(), 0, 2)]),
        table("call A", book_a()),
        table("call A, client 3 withdrawn", with(book_a(), 10, 1)),
        table("call A, bytes after the book", [book_a(), book_a()].concat()),
        table("no bids", book_i()),
        table("six clients", six_clients()),
        table("a full book", write::book(&full_book())),
        table("nothing", vec![]),
        table("bad version", with(book_a(), 0, 2)),
        table("one byte too few", book_a()[..29].to_vec()),
        table("supply 201", with(book_a(), 4, 201)),
        table("client 0", with(book_a(), 12, 0)),
        table("amount below reserves", with(book_a(), 17, 9)),
    ]
}
