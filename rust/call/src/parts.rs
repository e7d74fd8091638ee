//! A call taken apart, as far as its bytes allow: the book, the sheet, and the figures over both.

use crate::layout::{BookLayout, SheetLayout};
use crate::library;
use reference::questions::{question_1, question_2, question_6, question_8};
use reference::{Book, Sheet, Weights};

/// A book that has passed questions 1 and 2, and the bytes after it.
pub struct BookPart<'a> {
    pub book: Book,
    pub at: BookLayout,
    pub rest: &'a [u8],
}

/// A sheet that has passed question 6.
pub struct SheetPart {
    pub sheet: Sheet,
    pub at: SheetLayout,
}

pub fn book_of(input: &[u8]) -> Option<BookPart<'_>> {
    if !question_1(input) || !question_2(input) {
        return None;
    }
    let book = Book::read(input)?;
    let rest = input.get(book.length()..)?;
    let at = BookLayout::of(&book);
    Some(BookPart { book, at, rest })
}

pub fn sheet_of(part: &BookPart) -> Option<SheetPart> {
    if !question_6(part.rest, part.book.status.len()) {
        return None;
    }
    let sheet = Sheet::read(part.rest)?;
    let at = SheetLayout::of(part.book.length(), sheet.w());
    Some(SheetPart { sheet, at })
}

/// v, σ and ρ, where the library calls the book sound and the winners are a combination.
pub fn weights_of(input: &[u8], book: &Book, sheet: &Sheet) -> Option<Weights> {
    library::greatest(input)?;
    match question_8(book, sheet) {
        true => library::weights(input, book, &sheet.bids()),
        false => None,
    }
}
