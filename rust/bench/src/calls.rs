//! Calls that are accepted: a book, the bids that win, and an acceptable sheet for them; and each in many forms, with its clients and bids
//! numbered otherwise, so that a processor cannot learn one call's branches by heart.

use crate::book::{self, fits, rest};
use crate::books::{Kind, MANY, TIGHT};
use crate::search::{greatest, values};
use generate::{acceptable_sheet, write, Rng};
use reference::{Book, Sheet, Weights};

/// The book as what is measured reads it.
fn as_read(book: &Book) -> book::Book {
    book::read(&write::book(book)).unwrap_or_else(|number| panic!("a book is refused: {number}"))
}

/// Bids of greatest value, by rising client and numbered from 1: of each client in turn a bid that still comes to the greatest value with
/// those taken before and the best of the clients after it, if there is one.
fn winners(book: &Book) -> Vec<usize> {
    let mut left = as_read(book);
    let mut winners = Vec::new();
    for client in 1..=left.clients {
        let [with, without] = [(1 << (client - 1)) - 1, (1 << client) - 1];
        let goal = greatest(&left, with);
        let after = |bid: usize| book::Book { supply: rest(left.hours[bid], left.supply), ..left };
        let may = |bid: usize| usize::from(left.client[bid]) == client && left.stays(client, 0) && fits(left.hours[bid], left.supply);
        let wins = |&bid: &usize| may(bid) && u64::from(left.amount[bid]) + greatest(&after(bid), without) == goal;
        if let Some(bid) = (0..left.bids).find(wins) {
            winners.push(bid + 1);
            left = after(bid);
        }
    }
    winners
}

/// v, σ and ρ, by the search in Rust.
fn weights(book: &Book, winners: &[usize]) -> Weights {
    let read = as_read(book);
    let values = values(&read, 0);
    let v = values.without(0);
    let client = |k: usize| book.bids[winners[k] - 1].client - 1;
    let discard = |set: usize| (0..winners.len()).fold(0, |byte, k| byte | (set >> k & 1) << client(k));
    let sigma = |set: usize| i128::from(v - values.without(discard(set) as u8));
    let rho = |&bid: &usize| book.bids[bid - 1].amount - book.reserves(&book.bids[bid - 1]);
    Weights {
        v: i128::from(v),
        sigma: (0..1 << winners.len()).map(sigma).collect(),
        rho: winners.iter().map(rho).collect(),
    }
}

/// The book with its clients and bids numbered otherwise.
fn renumbered(book: &Book, seed: u64) -> Book {
    let mut rng = Rng::new(seed);
    let mut clients: Vec<usize> = (0..book.status.len()).collect();
    rng.shuffle(&mut clients);
    let mut other = book.clone();
    for (client, &to) in clients.iter().enumerate() {
        other.status[to] = book.status[client];
    }
    for bid in &mut other.bids {
        bid.client = clients[bid.client - 1] + 1;
    }
    rng.shuffle(&mut other.bids);
    other
}

/// A book and an acceptable sheet over it.
#[derive(Clone)]
pub struct Call {
    pub book: Book,
    pub sheet: Sheet,
}

impl Call {
    pub fn over(book: Book) -> Call {
        let winners = winners(&book);
        let weights = weights(&book, &winners);
        let sheet = acceptable_sheet(&mut Rng::new(1), &weights, &winners);
        Call { book, sheet }
    }

    /// Over a full book of a kind that has six winners wherever the kind allows it.
    pub fn of_kind(kind: &Kind) -> Call {
        let bytes = kind.book(kind.six_winners);
        Call::over(Book::read(&bytes).expect("the book can be read"))
    }

    /// Over full tight books with another supply, by which so many clients win.
    pub fn of_supply(supply: i128, winners: usize) -> Vec<Call> {
        let read = |seed| Book::read(&TIGHT.book(seed)).expect("the book can be read");
        let calls = (1..).map(|seed| Call::over(Book { supply: vec![supply; 4], ..read(seed) }));
        calls.filter(|call| call.sheet.winners.len() == winners).take(MANY as usize).collect()
    }

    /// The call over its book with clients and bids numbered otherwise, in so many ways.
    pub fn forms(&self, count: u64) -> Vec<Call> {
        (1..=count).map(|seed| Call::over(renumbered(&self.book, seed))).collect()
    }

    pub fn book_bytes(&self) -> Vec<u8> {
        write::book(&self.book)
    }

    pub fn input(&self) -> Vec<u8> {
        write::input(&self.book, &self.sheet)
    }
}
