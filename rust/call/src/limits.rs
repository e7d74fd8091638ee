//! Counts that no book or sheet can have. A text may have them, and the call that it makes is refused: so they are
//! told as warnings, each once, at the first line that is too many, with the question that refuses it.

use reference::Book;

const KINDS: usize = 4;
const CLIENTS: usize = 6;
const BIDS: usize = 48;
const BIDS_OF_A_CLIENT: usize = 8;

pub fn of_kinds(book: &Book) -> Option<String> {
    counted("kind", book.supply.len(), KINDS)
}

pub fn of_clients(book: &Book) -> Option<String> {
    counted("client", book.status.len(), CLIENTS)
}

/// Of all bids, and of those of the last one's client.
pub fn of_bids(book: &Book) -> Vec<String> {
    let client = book.bids.last().map_or(0, |bid| bid.client);
    let own = book.bids.iter().filter(|bid| bid.client == client).count();
    let of_client = (own == BIDS_OF_A_CLIENT + 1).then(|| {
        format!(
            "this is bid {own} of client {client}; a client has {BIDS_OF_A_CLIENT} at most, and question 4 refuses more"
        )
    });
    let of_all = counted("bid", book.bids.len(), BIDS);
    of_all.into_iter().chain(of_client).collect()
}

pub fn of_winners(winners: usize, book: &Book) -> Option<String> {
    let clients = book.status.len();
    (winners == clients + 1).then(|| {
        format!("{winners} winners are more than the book's clients, {clients}, and question 6 refuses that")
    })
}

fn counted(name: &str, count: usize, most: usize) -> Option<String> {
    (count == most + 1).then(|| {
        format!("this is {name} {count}; a book has {most} at most, and question 2 refuses more")
    })
}
