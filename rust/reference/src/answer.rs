//! The order of the questions, the answers, and the price list.

use crate::book::Book;
use crate::combinations::Values;
use crate::questions::*;
use crate::sheet::Sheet;
use crate::weights::Weights;
use std::borrow::Borrow;

/// The answer to an input. All fields but the number are 0 in a refusal.
#[derive(Clone, Copy, Debug, Default, PartialEq, Eq)]
pub struct Answer {
    pub number: u8,
    pub w: u8,
    pub q: u32,
    pub prices: [u64; 6],
}

/// What questions 1 to 15 come to: the book and the sheet of an accepted input, or the number of the
/// first question that is answered no.
pub type Outcome = Result<(Book, Sheet), u8>;

/// Questions 1 to 15 over a book and the sheet after it.
pub fn judge(input: &[u8]) -> Answer {
    answer(&outcome(input, Values::of))
}

/// The answer to an input of this outcome.
pub fn answer(outcome: &Outcome) -> Answer {
    match outcome {
        Ok((book, sheet)) => {
            let mut prices = [0; 6];
            for (place, price) in prices.iter_mut().zip(price_numerators(book, sheet)) {
                *place = price as u64;
            }
            Answer {
                number: 0,
                w: sheet.w() as u8,
                q: sheet.q as u32,
                prices,
            }
        }
        Err(number) => Answer {
            number: *number,
            ..Answer::default()
        },
    }
}

/// Greatest value alone: questions 1 to 5 over the book, then 16. The number and the value.
pub fn greatest_value(book: &[u8], discard: u8) -> (u8, u64) {
    greatest_by(book, discard, Values::of)
}

/// The same, with `values` as in `outcome`.
pub fn greatest_by<V: Borrow<Values>>(
    book: &[u8],
    discard: u8,
    values: impl FnOnce(&Book) -> V,
) -> (u8, u64) {
    let answer = sound_book(book).and_then(|book| {
        ask(16, question_16(&book, discard))?;
        Ok((values(&book).borrow()).greatest_without(usize::from(discard)))
    });
    match answer {
        Ok(value) => (0, value as u64),
        Err(number) => (number, 0),
    }
}

/// 0 for a sound book, whatever follows it; otherwise the number of its refusal, 1 to 5.
pub fn book_refusal(bytes: &[u8]) -> u8 {
    sound_book(bytes).map_or_else(|number| number, |_| 0)
}

/// The whole output of the program (FORMAT, "Answers").
pub fn price_list(input: &[u8]) -> String {
    text(&outcome(input, Values::of))
}

/// What is printed for an input of this outcome.
pub fn text(outcome: &Outcome) -> String {
    match outcome {
        Ok((book, sheet)) => {
            let mut lines = format!("accepted {} {}\n", sheet.w(), sheet.q);
            for (bid, price) in sheet.bids().iter().zip(price_numerators(book, sheet)) {
                let client = book.bid(*bid).map_or(0, |bid| bid.client);
                lines += &format!("{client} {bid} {price}\n");
            }
            lines
        }
        Err(number) => format!("refused {number}\n"),
    }
}

/// Price numerators by winner, over the sheet's own q.
fn price_numerators(book: &Book, sheet: &Sheet) -> Vec<i128> {
    let winners = sheet.winners.iter();
    winners
        .map(|winner| sheet.q * book.bid(winner.bid).map_or(0, |bid| bid.amount) - winner.x)
        .collect()
}

/// Questions 1 to 5. Bytes after the book are not looked at.
pub fn sound_book(input: &[u8]) -> Result<Book, u8> {
    ask(1, question_1(input))?;
    ask(2, question_2(input))?;
    let book = Book::read(input).ok_or(2)?;
    ask(3, question_3(&book))?;
    ask(4, question_4(&book))?;
    ask(5, question_5(&book))?;
    Ok(book)
}

/// Questions 6 to 8, over a sound book and the bytes after it.
pub fn proper_sheet(book: &Book, rest: &[u8]) -> Result<Sheet, u8> {
    ask(6, question_6(rest, book.status.len()))?;
    let sheet = Sheet::read(rest).ok_or(6)?;
    ask(7, question_7(&sheet))?;
    ask(8, question_8(book, &sheet))?;
    Ok(sheet)
}

/// Questions 9 to 15, over a sheet that has passed 6 to 8.
pub fn balanced(book: &Book, sheet: &Sheet, weights: &Weights) -> Result<(), u8> {
    ask(9, question_9(book, sheet, weights))?;
    ask(10, question_10(sheet, weights))?;
    ask(11, question_11(sheet, weights))?;
    ask(12, question_12(sheet))?;
    ask(13, question_13(sheet, weights))?;
    ask(14, question_14(sheet, weights))?;
    ask(15, question_15(sheet, weights))
}

/// All of 1 to 15. `values` gives the greatest values of a sound book: `Values::of` works them out,
/// and a caller who puts many sheets over one book may have kept them.
pub fn outcome<V: Borrow<Values>>(input: &[u8], values: impl FnOnce(&Book) -> V) -> Outcome {
    let book = sound_book(input)?;
    let rest = input.get(book.length()..).unwrap_or(&[]);
    let sheet = proper_sheet(&book, rest)?;
    let weights = Weights::from_values(&book, values(&book).borrow(), &sheet.bids());
    balanced(&book, &sheet, &weights)?;
    Ok((book, sheet))
}

/// A "no" ends the questions with its number.
fn ask(number: u8, yes: bool) -> Result<(), u8> {
    if yes {
        Ok(())
    } else {
        Err(number)
    }
}
