//! Combinations, all of them, and greatest values as maxima over them (FORMAT, "Terms").

use crate::book::Book;

/// Whether these bid numbers are a combination: bids that are there, of standing clients, at most
/// one of each client, with no more hours of any kind than the supply.
pub fn is_combination(book: &Book, bids: &[usize]) -> bool {
    all_there(book, bids)
        && all_standing(book, bids)
        && one_of_each_client(book, bids)
        && hours_fit(book, bids)
}

fn all_there(book: &Book, bids: &[usize]) -> bool {
    bids.iter().all(|&b| book.bid(b).is_some())
}

fn all_standing(book: &Book, bids: &[usize]) -> bool {
    let mut taken = bids.iter().filter_map(|&b| book.bid(b));
    taken.all(|bid| book.is_standing(bid.client))
}

fn one_of_each_client(book: &Book, bids: &[usize]) -> bool {
    let client = |place: usize| book.bid(bids[place]).map(|bid| bid.client);
    (0..bids.len()).all(|i| (0..i).all(|j| client(i) != client(j)))
}

fn hours_fit(book: &Book, bids: &[usize]) -> bool {
    (0..book.supply.len()).all(|kind| {
        let taken = bids.iter().filter_map(|&b| book.bid(b));
        taken.map(|bid| bid.hours[kind]).sum::<i128>() <= book.supply[kind]
    })
}

/// The value of a list of bid numbers.
pub fn value(book: &Book, bids: &[usize]) -> i128 {
    let taken = bids.iter().filter_map(|&b| book.bid(b));
    taken.map(|bid| bid.amount).sum()
}

/// Shows `visit` every combination of the book once, as a list of bid numbers by rising client.
///
/// Each client's choices are none and each of its bids. An odometer with one wheel for each client
/// runs through all choices, 9^6 at most; those that are no combination are left out.
pub fn each_combination(book: &Book, mut visit: impl FnMut(&[usize])) {
    let wheels: Vec<Vec<Option<usize>>> = (1..=book.status.len())
        .map(|client| {
            let numbers = (1..=book.bids.len()).filter(|&b| book.bids[b - 1].client == client);
            std::iter::once(None).chain(numbers.map(Some)).collect()
        })
        .collect();
    let mut reading = vec![0; wheels.len()];
    let mut list = Vec::new();
    loop {
        list.clear();
        list.extend((0..wheels.len()).filter_map(|c| wheels[c][reading[c]]));
        if is_combination(book, &list) {
            visit(&list);
        }
        if !advance(&wheels, &mut reading) {
            return;
        }
    }
}

/// Turns the odometer by one; "no" when it has come round to its start.
fn advance(wheels: &[Vec<Option<usize>>], reading: &mut [usize]) -> bool {
    for (wheel, at) in wheels.iter().zip(reading) {
        if *at + 1 < wheel.len() {
            *at += 1;
            return true;
        }
        *at = 0;
    }
    false
}

/// Every combination of the book, kept. For small books.
pub fn all_combinations(book: &Book) -> Vec<Vec<usize>> {
    let mut all = Vec::new();
    each_combination(book, |list| all.push(list.to_vec()));
    all
}

/// A set of clients as a number: bit 0 is client 1, as in a discard byte.
pub fn clients_of(book: &Book, bids: &[usize]) -> usize {
    let taken = bids.iter().filter_map(|&b| book.bid(b));
    taken.fold(0, |set, bid| set | 1 << (bid.client - 1))
}

/// Greatest values of a book for all sets of discarded clients, from one listing.
#[derive(Clone, Debug)]
pub struct Values {
    /// By set of clients: the largest value of a combination with bids of exactly these clients.
    of_exactly: Vec<Option<i128>>,
}

impl Values {
    /// Lists the combinations of a sound book.
    pub fn of(book: &Book) -> Values {
        let mut values = Values::before_any(book);
        each_combination(book, |list| values.note(book, list));
        values
    }

    /// No combination noted yet.
    pub fn before_any(book: &Book) -> Values {
        let of_exactly = vec![None; 1 << book.status.len()];
        Values { of_exactly }
    }

    /// Notes one combination of the book.
    pub fn note(&mut self, book: &Book, list: &[usize]) {
        let best = &mut self.of_exactly[clients_of(book, list)];
        *best = (*best).max(Some(value(book, list)));
    }

    /// The greatest value with all bids of these clients discarded: the maximum over all
    /// combinations that hold no bid of theirs.
    pub fn greatest_without(&self, discarded: usize) -> i128 {
        let sets = 0..self.of_exactly.len();
        let left = sets.filter(|set| set & discarded == 0);
        let values = left.filter_map(|set| self.of_exactly[set]);
        values.max().unwrap_or(0)
    }
}
