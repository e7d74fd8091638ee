//! Admissible discounts, straight from their definition. Sets of winners and σ play no part here.

use crate::book::Book;
use crate::combinations::each_combination;

/// Discounts x / q, one for each winner in the order of `winners`, all over one denominator q.
/// Neither is held to what a sheet can say.
pub struct Discounts<'a> {
    pub q: i128,
    pub x: &'a [i128],
}

/// Whether the discounts are admissible for these winners, a combination given as bid numbers. Each
/// lies between 0 and its ρ(j), and once all bids are lowered no other combination beats the
/// winners'. With a q of 0 or below they are not.
pub fn admissible(book: &Book, winners: &[usize], discounts: &Discounts) -> bool {
    discounts.q > 0
        && discounts.x.len() == winners.len()
        && discounts.x.iter().all(|&x| x >= 0)
        && none_below_reserve(book, winners, discounts)
        && none_worth_more(book, winners, discounts)
}

fn none_below_reserve(book: &Book, winners: &[usize], discounts: &Discounts) -> bool {
    winners.iter().zip(discounts.x).all(|(&b, &x)| {
        book.bid(b)
            .is_some_and(|bid| x <= discounts.q * (bid.amount - book.reserves(bid)))
    })
}

/// The last condition alone, which asks about nothing but lowered bids.
pub fn none_worth_more(book: &Book, winners: &[usize], discounts: &Discounts) -> bool {
    let lowered: Vec<i128> = (0..=book.bids.len())
        .map(|b| lowered_bid(book, winners, discounts, b))
        .collect();
    let worth = |bids: &[usize]| -> i128 { bids.iter().filter_map(|&b| lowered.get(b)).sum() };
    let won = worth(winners);
    let mut none = true;
    each_combination(book, |list| none = none && worth(list) <= won);
    none
}

/// A bid's amount times q, lowered by its client's numerator if that client won, but not below 0.
/// There is no bid number 0; it counts as 0.
fn lowered_bid(book: &Book, winners: &[usize], discounts: &Discounts, b: usize) -> i128 {
    let Some(bid) = book.bid(b) else { return 0 };
    let of_same_client = |&won: &usize| book.bid(won).is_some_and(|w| w.client == bid.client);
    let full = discounts.q * bid.amount;
    match winners.iter().position(of_same_client) {
        Some(j) => (full - discounts.x.get(j).unwrap_or(&0)).max(0),
        None => full,
    }
}
