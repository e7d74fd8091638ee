//! A draft as the bytes of a call.

use crate::draft::{Draft, Head};
use reference::sheet::sheet_length;
use reference::{Book, Sheet};

/// The bytes of a draft, whose numbers all fit their fields.
pub fn call(draft: &Draft) -> Vec<u8> {
    let mut bytes = Vec::new();
    put_book(&mut bytes, draft.head, &draft.book);
    if let Some((head, sheet)) = &draft.sheet {
        put_sheet(&mut bytes, *head, sheet);
    }
    bytes
}

/// The low `width` bytes of a number, in two's complement.
fn put(bytes: &mut Vec<u8>, value: i128, width: usize) {
    bytes.extend_from_slice(&value.to_be_bytes()[16 - width..]);
}

fn put_count(bytes: &mut Vec<u8>, count: usize) {
    put(bytes, count as i128, 1);
}

fn put_head(bytes: &mut Vec<u8>, head: Head, length: usize) {
    put(bytes, head.version.unwrap_or(1), 1);
    put(bytes, head.length.unwrap_or(length as i128), 2);
}

fn put_book(bytes: &mut Vec<u8>, head: Head, book: &Book) {
    put_head(bytes, head, book.length());
    put_count(bytes, book.supply.len());
    for (&supply, &reserve) in book.supply.iter().zip(&book.reserve) {
        put(bytes, supply, 1);
        put(bytes, reserve, 2);
    }
    put_count(bytes, book.status.len());
    put_run(bytes, &book.status);
    put_count(bytes, book.bids.len());
    put_bids(bytes, book);
}

/// Numbers of a byte each.
fn put_run(bytes: &mut Vec<u8>, values: &[i128]) {
    for &value in values {
        put(bytes, value, 1);
    }
}

fn put_bids(bytes: &mut Vec<u8>, book: &Book) {
    for bid in &book.bids {
        put_count(bytes, bid.client);
        put_run(bytes, &bid.hours);
        put(bytes, bid.amount, 4);
    }
}

fn put_sheet(bytes: &mut Vec<u8>, head: Head, sheet: &Sheet) {
    put_head(bytes, head, sheet_length(sheet.w()));
    put_count(bytes, sheet.w());
    let bids: Vec<i128> = sheet
        .winners
        .iter()
        .map(|winner| winner.bid as i128)
        .collect();
    put_run(bytes, &bids);
    put(bytes, sheet.q, 4);
    put(bytes, sheet.s, 4);
    put_winners(bytes, sheet);
    put(bytes, sheet.g, 8);
    for set in sheet.sets.iter().skip(1) {
        put(bytes, set.y, 4);
        put(bytes, set.u, 8);
    }
}

fn put_winners(bytes: &mut Vec<u8>, sheet: &Sheet) {
    for winner in &sheet.winners {
        put(bytes, winner.x, 8);
        put(bytes, winner.z, 4);
        put(bytes, winner.r, 8);
        put(bytes, winner.t, 8);
    }
}
