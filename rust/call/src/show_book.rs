//! The lines of a book, and what each set of its clients adds to its greatest value.

use crate::library;
use crate::parts::BookPart;
use crate::rows::Rows;
use reference::sheet::holds;
use reference::{Bid, Book};

pub fn book_lines(part: &BookPart) -> String {
    let book = &part.book;
    let mut bids = Rows::default();
    for (at, bid) in book.bids.iter().enumerate() {
        bids.add(bid_line(at + 1, bid), bid_comment(book, bid));
    }
    format!(
        "{}\n{}\n{}",
        kind_lines(book),
        client_lines(book),
        bids.text()
    )
}

fn kind_lines(book: &Book) -> String {
    let kinds = book.supply.iter().zip(&book.reserve).enumerate();
    kinds
        .map(|(at, (supply, reserve))| {
            format!("kind {} supply {supply} reserve {reserve}\n", at + 1)
        })
        .collect()
}

fn client_lines(book: &Book) -> String {
    let clients = book.status.iter().enumerate();
    clients
        .map(|(at, &status)| format!("client {} {}\n", at + 1, status_words(status)))
        .collect()
}

fn status_words(status: i128) -> String {
    match status {
        0 => "standing".to_string(),
        1 => "withdrawn".to_string(),
        other => format!("status {other}"),
    }
}

fn bid_line(number: usize, bid: &Bid) -> String {
    let hours: Vec<String> = bid.hours.iter().map(|hours| hours.to_string()).collect();
    format!(
        "bid {number} client {} hours {} amount {}",
        bid.client,
        hours.join(" "),
        bid.amount
    )
}

/// The reserves of the hours, term by term, and what is left for a discount.
fn bid_comment(book: &Book, bid: &Bid) -> String {
    let hours = bid.hours.iter().zip(&book.reserve);
    let terms: Vec<String> = hours
        .map(|(hours, reserve)| format!("{hours} × {reserve}"))
        .collect();
    let reserves = book.reserves(bid);
    let above = bid.amount - reserves;
    let mark = crate::rows::mark(above < 0);
    let standing = match book.is_standing(bid.client) {
        true => "",
        false => "; not of a standing client",
    };
    format!(
        "reserves {} = {reserves}, ρ {above}{mark}{standing}",
        terms.join(" + ")
    )
}

/// v and σ of each set of clients, the library's, where it calls the book sound.
pub fn surplus_lines(input: &[u8], book: &Book) -> String {
    let Some(table) = library::surpluses(input, book) else {
        return "\n# The book is not sound, so there is no v and no σ.\n".to_string();
    };
    let v = table.v;
    let line = |(set, sigma): (usize, &i128)| {
        let clients = clients(set, book.status.len());
        format!(
            "#     set {set}, {clients}: {v} - {} = {sigma}\n",
            v - sigma
        )
    };
    let lines = table.sigma.iter().enumerate().skip(1).map(line);
    format!(
        "\n# v = {v}\n# σ of each set of clients: v less the greatest value without them\n{}",
        lines.collect::<String>()
    )
}

/// The clients of a set: bit 0 of its number is client 1.
fn clients(set: usize, n: usize) -> String {
    let members: Vec<String> = (0..n)
        .filter(|&k| holds(set, k))
        .map(|k| (k + 1).to_string())
        .collect();
    match members.len() {
        1 => format!("client {}", members.join(" ")),
        _ => format!("clients {}", members.join(" ")),
    }
}
