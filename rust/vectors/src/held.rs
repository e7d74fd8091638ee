//! A book as a value of fixed arrays: what layer 1 hands out, and what anybody may hand to the layers above, sound or not.

use reference::questions::{question_3, question_4, question_5};
use reference::{Bid, Book};

/// Counts, and entries up to them; hours of kind j of the bid at place i at 4 i + j. A cap of 0 is a withdrawn client's.
#[derive(Clone)]
pub struct Held {
    pub k: u8,
    pub supply: [u8; 4],
    pub reserve: [u16; 4],
    pub n: u8,
    pub caps: [u16; 6],
    pub m: u8,
    pub client: [u8; 48],
    pub hours: [u8; 192],
    pub amount: [u32; 48],
}

pub const NOTHING: Held = Held {
    k: 0,
    supply: [0; 4],
    reserve: [0; 4],
    n: 0,
    caps: [0; 6],
    m: 0,
    client: [0; 48],
    hours: [0; 192],
    amount: [0; 48],
};

impl Held {
    /// Of a sound book.
    pub fn of(book: &Book) -> Held {
        let mut held = NOTHING;
        held.k = book.supply.len() as u8;
        for kind in 0..book.supply.len() {
            held.supply[kind] = book.supply[kind] as u8;
            held.reserve[kind] = book.reserve[kind] as u16;
        }
        held.n = book.status.len() as u8;
        for (cap, &status) in held.caps.iter_mut().zip(&book.status) {
            *cap = if status == 0 { 65_535 } else { 0 };
        }
        held.m = book.bids.len() as u8;
        for (i, bid) in book.bids.iter().enumerate() {
            held.client[i] = bid.client as u8;
            held.amount[i] = bid.amount as u32;
            for (kind, &hours) in bid.hours.iter().enumerate() {
                held.hours[4 * i + kind] = hours as u8;
            }
        }
        held
    }

    /// A field by its number, and a number put at a place of it; where it has no such place, nothing.
    pub fn change(&mut self, field: u8, place: usize, number: u32) {
        fn put<T>(places: &mut [T], place: usize, value: T) {
            if let Some(old) = places.get_mut(place) {
                *old = value;
            }
        }
        match field {
            0 => self.k = number as u8,
            1 => put(&mut self.supply, place, number as u8),
            2 => put(&mut self.reserve, place, number as u16),
            3 => self.n = number as u8,
            4 => put(&mut self.caps, place, number as u16),
            6 => put(&mut self.client, place, number as u8),
            7 => put(&mut self.hours, place, number as u8),
            8 => put(&mut self.amount, place, number),
            _ => self.m = number as u8,
        }
    }

    /// The book that it means: as many kinds, clients and bids as the counts say and there is room for.
    pub fn meaning(&self) -> Book {
        let kinds = usize::from(self.k).min(4);
        let bid = |i: usize| Bid {
            client: usize::from(self.client[i]),
            hours: self.hours[4 * i..4 * i + kinds].iter().map(|&hours| i128::from(hours)).collect(),
            amount: i128::from(self.amount[i]),
        };
        Book {
            supply: self.supply[..kinds].iter().map(|&supply| i128::from(supply)).collect(),
            reserve: self.reserve[..kinds].iter().map(|&reserve| i128::from(reserve)).collect(),
            status: self.caps[..usize::from(self.n).min(6)].iter().map(|&cap| i128::from(cap == 0)).collect(),
            bids: (0..usize::from(self.m).min(48)).map(bid).collect(),
        }
    }

    /// The book, or 2 where a count is out of its range, or the number of the first of questions 3 to 5 that is answered no.
    pub fn sound(&self) -> Result<Book, u8> {
        if !(1..=4).contains(&self.k) || !(1..=6).contains(&self.n) || 48 < self.m {
            return Err(2);
        }
        let book = self.meaning();
        let questions: [(u8, fn(&Book) -> bool); 3] = [(3, question_3), (4, question_4), (5, question_5)];
        match questions.iter().find(|(_, yes)| !yes(&book)) {
            Some(&(number, _)) => Err(number),
            None => Ok(book),
        }
    }
}
