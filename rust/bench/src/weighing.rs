//! Questions 8 and 9 in Rust, and σ of the sets of winners, by either search.

use crate::book::{fits, rest, Book};
use crate::sheet::Sheet;
use crate::{search, set_by_set};

/// The winners' clients and their value, where question 8 is answered yes.
pub struct Chosen {
    w: usize,
    clients: [u8; 6],
    value: u64,
}

impl Chosen {
    /// The discard byte of each set of winners, by the set's number: with each winner the sets double.
    fn discards(&self) -> impl Iterator<Item = u8> {
        let mut discards = [0; 64];
        for (j, client) in self.clients[..self.w].iter().enumerate() {
            let (sets, more) = discards.split_at_mut(1 << j);
            more.iter_mut().zip(sets).for_each(|(with, &mut without)| *with = without | 1 << (client - 1));
        }
        discards.into_iter().take(1 << self.w)
    }
}

pub fn combination(book: &Book, sheet: &Sheet) -> Option<Chosen> {
    let mut chosen = Chosen { w: sheet.w, clients: [0; 6], value: 0 };
    let mut left = book.supply;
    let mut last = 0;
    for j in 0..sheet.w {
        let bid = usize::from(sheet.bids[j]).checked_sub(1).filter(|&bid| bid < book.bids)?;
        let client = book.client[bid];
        if client <= last || !book.stays(usize::from(client), 0) || !fits(book.hours[bid], left) {
            return None;
        }
        left = rest(book.hours[bid], left);
        chosen.clients[j] = client;
        chosen.value += u64::from(book.amount[bid]);
        last = client;
    }
    Some(chosen)
}

/// σ by set number, where question 9 is answered yes: all sets are weighed in one pass, whose last set is v.
pub fn in_one_pass(book: &Book, chosen: &Chosen) -> Option<[u64; 64]> {
    let values = search::values(book, 0);
    let v = values.without(0);
    if chosen.value != v {
        return None;
    }
    let mut sigma = [0; 64];
    for (sigma, discard) in sigma.iter_mut().zip(chosen.discards()) {
        *sigma = v - values.without(discard);
    }
    Some(sigma)
}

/// The same by the old search, which weighs no other set before question 9.
pub fn set_by_set(book: &Book, chosen: &Chosen) -> Option<[u64; 64]> {
    let v = set_by_set::greatest(book, 0);
    if chosen.value != v {
        return None;
    }
    let mut sigma = set_by_set::greatest_of(book, chosen.discards());
    for value in &mut sigma[..1 << chosen.w] {
        *value = v - *value;
    }
    Some(sigma)
}
