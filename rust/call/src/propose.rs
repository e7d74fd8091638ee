//! A sheet for a book, made outside the proof by the exact method of rust/generate, and judged by the proved library.
//! Nothing that is not accepted is handed out.

use crate::explain::places;
use crate::library::{self, Reply};
use crate::parts::book_of;
use generate::{first_sheet, weighed, write};
use reference::{Book, Sheet, Weights};

/// A call that the library has accepted.
pub struct Proposal {
    pub call: Vec<u8>,
    pub reply: Reply,
    /// The winners' bids, and how many other combinations are worth as much.
    pub bids: Vec<usize>,
    pub equals: usize,
    /// Whether something followed the book; it was not looked at.
    pub replaced: bool,
}

/// The proposal for the book that an input begins with, or why there is none.
pub fn propose(input: &[u8]) -> Result<Proposal, String> {
    let refusal = library::book_refusal(input);
    let part = match book_of(input) {
        Some(part) if refusal == 0 => part,
        _ => return Err(unsound(input, refusal)),
    };
    let (bids, equals, sheet) = sheet_for(&part.book);
    let (call, reply) = judged(&input[..part.book.length()], &sheet)?;
    Ok(Proposal {
        call,
        reply,
        bids,
        equals,
        replaced: !part.rest.is_empty(),
    })
}

/// The winners that are listed first among those of greatest value, how many others there are, and the sheet.
fn sheet_for(book: &Book) -> (Vec<usize>, usize, Sheet) {
    let (values, mut winning) = weighed(book);
    let bids = winning.swap_remove(0);
    let weights = Weights::from_values(book, &values, &bids);
    let sheet = first_sheet(&weights, &bids);
    (bids, winning.len(), sheet)
}

/// The call of a book and a sheet, if the library accepts it.
pub fn judged(book: &[u8], sheet: &Sheet) -> Result<(Vec<u8>, Reply), String> {
    let call = [book, &write::sheet(sheet)].concat();
    let reply = library::ask(&call);
    match reply.number {
        0 => Ok((call, reply)),
        number => Err(format!(
            "the proposal is refused with {number} by the proved library, and is not written; keep this book and report it"
        )),
    }
}

fn unsound(input: &[u8], number: u32) -> String {
    let places = places(number, input).into_iter();
    let words: Vec<String> = places.map(|place| place.words).collect();
    format!("question {number} refuses the book: {}", words.join("; "))
}
