//! Books and sheets as bytes. Lengths and counts are written as the formulas give them; every
//! other field is written as it stands, in range or not, cut to its width.

use reference::book::Book;
use reference::sheet::Sheet;

fn put(bytes: &mut Vec<u8>, value: i128, width: usize) {
    bytes.extend_from_slice(&value.to_be_bytes()[16 - width..]);
}

pub fn book(book: &Book) -> Vec<u8> {
    let mut bytes = vec![1];
    put(&mut bytes, book.length() as i128, 2);
    put(&mut bytes, book.supply.len() as i128, 1);
    for (&supply, &reserve) in book.supply.iter().zip(&book.reserve) {
        put(&mut bytes, supply, 1);
        put(&mut bytes, reserve, 2);
    }
    put(&mut bytes, book.status.len() as i128, 1);
    for &status in &book.status {
        put(&mut bytes, status, 1);
    }
    put(&mut bytes, book.bids.len() as i128, 1);
    for bid in &book.bids {
        put(&mut bytes, bid.client as i128, 1);
        for &hours in &bid.hours {
            put(&mut bytes, hours, 1);
        }
        put(&mut bytes, bid.amount, 4);
    }
    bytes
}

pub fn sheet(sheet: &Sheet) -> Vec<u8> {
    let mut bytes = vec![1];
    put(&mut bytes, sheet_length(sheet), 2);
    put(&mut bytes, sheet.winners.len() as i128, 1);
    for winner in &sheet.winners {
        put(&mut bytes, winner.bid as i128, 1);
    }
    put(&mut bytes, sheet.q, 4);
    put(&mut bytes, sheet.s, 4);
    for winner in &sheet.winners {
        put(&mut bytes, winner.x, 8);
        put(&mut bytes, winner.z, 4);
        put(&mut bytes, winner.r, 8);
        put(&mut bytes, winner.t, 8);
    }
    put(&mut bytes, sheet.g, 8);
    for set in &sheet.sets[1..] {
        put(&mut bytes, set.y, 4);
        put(&mut bytes, set.u, 8);
    }
    bytes
}

fn sheet_length(sheet: &Sheet) -> i128 {
    20 + 29 * sheet.winners.len() as i128 + 12 * (sheet.sets.len() as i128 - 1)
}

/// A whole input: the book, and the sheet from the byte after it.
pub fn input(of_book: &Book, of_sheet: &Sheet) -> Vec<u8> {
    let mut bytes = book(of_book);
    bytes.extend(sheet(of_sheet));
    bytes
}
