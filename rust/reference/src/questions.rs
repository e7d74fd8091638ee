//! Questions 1 to 16, a function each, `true` for yes. Each relies on a yes to those before it.
//! A question about every bid, winner or set is put to each by a function below it.

use crate::book::{Bid, Book, Counts};
use crate::bytes::number;
use crate::combinations::{is_combination, value};
use crate::sheet::{sheet_length, Multipliers, Sheet, Winner};
use crate::weights::Weights;

const MOST_HOURS: i128 = 200;
const MOST_RESERVE: i128 = 10_000;
const MOST_AMOUNT: i128 = 1_000_000;
const MOST_BIDS_OF_A_CLIENT: usize = 8;
/// For q, s, Y and Z.
const MOST_SMALL: i128 = 10_000;
/// For X.
const MOST_NUMERATOR: i128 = 10_000_000_000;
/// For R, T and U, and for G on either side of 0.
const MOST_LARGE: i128 = 1_000_000_000_000;

/// Question 1: three bytes, and the version.
pub fn question_1(input: &[u8]) -> bool {
    input.len() >= 3 && input[0] == 1
}

/// Question 2: the book's length, and K, n and m within it.
pub fn question_2(input: &[u8]) -> bool {
    let Some(length) = number(input, 1, 2) else {
        return false;
    };
    let Some(book) = input.get(..length as usize) else {
        return false;
    };
    match Counts::read(book) {
        Some(counts) => counts_agree(&counts, book.len()),
        None => false,
    }
}

fn counts_agree(counts: &Counts, length: usize) -> bool {
    (1..=4).contains(&counts.k)
        && (1..=6).contains(&counts.n)
        && counts.m <= 48
        && length == counts.book_length()
}

/// Question 3: supplies, reserves and statuses.
pub fn question_3(book: &Book) -> bool {
    book.supply.iter().all(supply_in_range)
        && book.reserve.iter().all(reserve_in_range)
        && book.status.iter().all(status_in_range)
}

fn supply_in_range(supply: &i128) -> bool {
    (0..=MOST_HOURS).contains(supply)
}

fn reserve_in_range(reserve: &i128) -> bool {
    (0..=MOST_RESERVE).contains(reserve)
}

fn status_in_range(status: &i128) -> bool {
    (0..=1).contains(status)
}

/// Question 4: each bid for itself, and no client with too many. Withdrawn clients' bids too.
pub fn question_4(book: &Book) -> bool {
    let n = book.status.len();
    book.bids.iter().all(|bid| bid_is_in_order(bid, n))
        && (1..=n).all(|client| bids_of(book, client) <= MOST_BIDS_OF_A_CLIENT)
}

fn bid_is_in_order(bid: &Bid, n: usize) -> bool {
    (1..=n).contains(&bid.client)
        && bid.hours.iter().any(|&hours| hours >= 1)
        && (1..=MOST_AMOUNT).contains(&bid.amount)
}

fn bids_of(book: &Book, client: usize) -> usize {
    let bids = book.bids.iter();
    bids.filter(|bid| bid.client == client).count()
}

/// Question 5: no amount below the reserves of its hours.
pub fn question_5(book: &Book) -> bool {
    book.bids.iter().all(|bid| meets_reserves(book, bid))
}

fn meets_reserves(book: &Book, bid: &Bid) -> bool {
    bid.amount >= book.reserves(bid)
}

/// Question 6: the sheet's version, length and w, where `rest` is all that follows the book.
pub fn question_6(rest: &[u8], n: usize) -> bool {
    let fields = (number(rest, 0, 1), number(rest, 1, 2), number(rest, 3, 1));
    let (Some(version), Some(length), Some(w)) = fields else {
        return false;
    };
    let (length, w) = (length as usize, w as usize);
    version == 1 && w <= n && length == sheet_length(w) && length == rest.len()
}

/// Question 7: the ranges of the sheet's numbers.
pub fn question_7(sheet: &Sheet) -> bool {
    (1..=MOST_SMALL).contains(&sheet.q)
        && (1..=MOST_SMALL).contains(&sheet.s)
        && sheet.winners.iter().all(winner_in_range)
        && (-MOST_LARGE..=MOST_LARGE).contains(&sheet.g)
        && sheet.sets.iter().all(set_in_range)
}

fn winner_in_range(winner: &Winner) -> bool {
    winner.x <= MOST_NUMERATOR
        && winner.z <= MOST_SMALL
        && winner.r <= MOST_LARGE
        && winner.t <= MOST_LARGE
}

fn set_in_range(set: &Multipliers) -> bool {
    set.y <= MOST_SMALL && set.u <= MOST_LARGE
}

/// Question 8: the winners are a combination in the order of their clients.
pub fn question_8(book: &Book, sheet: &Sheet) -> bool {
    is_combination(book, &sheet.bids()) && clients_rise(book, &sheet.bids())
}

fn clients_rise(book: &Book, bids: &[usize]) -> bool {
    let client = |b: usize| book.bid(b).map(|bid| bid.client);
    bids.windows(2)
        .all(|pair| client(pair[0]) < client(pair[1]))
}

/// Question 9: the winners have the greatest value.
pub fn question_9(book: &Book, sheet: &Sheet, weights: &Weights) -> bool {
    value(book, &sheet.bids()) == weights.v
}

/// Question 10: no discount takes its winner below reserve.
pub fn question_10(sheet: &Sheet, weights: &Weights) -> bool {
    (0..sheet.w()).all(|j| within_reserve(sheet, weights, j))
}

pub fn within_reserve(sheet: &Sheet, weights: &Weights, j: usize) -> bool {
    sheet.winners[j].x <= sheet.q * weights.rho[j]
}

/// Question 11: no non-empty set is discounted by more than its σ.
pub fn question_11(sheet: &Sheet, weights: &Weights) -> bool {
    let mut sets = sheet.set_numbers();
    sets.all(|set| within_sigma(sheet, weights, set))
}

pub fn within_sigma(sheet: &Sheet, weights: &Weights, set: usize) -> bool {
    sheet.x_sum(set) <= sheet.q * weights.sigma[set]
}

/// Question 12: each winner is covered to s by its Z and the Y of its sets.
pub fn question_12(sheet: &Sheet) -> bool {
    (0..sheet.w()).all(|j| is_covered(sheet, j))
}

pub fn is_covered(sheet: &Sheet, j: usize) -> bool {
    let of_sets = sheet.sum_over_sets_holding(j, |set| set.y);
    sheet.winners[j].z + of_sets >= sheet.s
}

/// Question 13: the bound that Y and Z give is met by the discounts.
pub fn question_13(sheet: &Sheet, weights: &Weights) -> bool {
    let sets = sheet.set_numbers();
    let of_sets: i128 = sets.map(|set| sheet.sets[set].y * weights.sigma[set]).sum();
    let winners = 0..sheet.w();
    let of_winners: i128 = winners.map(|j| sheet.winners[j].z * weights.rho[j]).sum();
    let discounts: i128 = sheet.winners.iter().map(|winner| winner.x).sum();
    sheet.q * (of_sets + of_winners) == sheet.s * discounts
}

/// Question 14: each distance from σ(j), uncapped, is made up of the multipliers.
pub fn question_14(sheet: &Sheet, weights: &Weights) -> bool {
    (0..sheet.w()).all(|j| is_balanced(sheet, weights, j))
}

pub fn is_balanced(sheet: &Sheet, weights: &Weights, j: usize) -> bool {
    let winner = &sheet.winners[j];
    let distance = sheet.q * weights.sigma_of_one(j) - winner.x;
    let of_sets = sheet.sum_over_sets_holding(j, |set| set.u);
    distance == sheet.g + of_sets + winner.r - winner.t
}

/// Question 15: U, R and T stand only where their bound is met exactly.
pub fn question_15(sheet: &Sheet, weights: &Weights) -> bool {
    let mut sets = sheet.set_numbers();
    sets.all(|set| u_may_stand(sheet, weights, set))
        && (0..sheet.w()).all(|j| r_may_stand(sheet, weights, j))
        && (0..sheet.w()).all(|j| t_may_stand(sheet, j))
}

pub fn u_may_stand(sheet: &Sheet, weights: &Weights, set: usize) -> bool {
    sheet.sets[set].u == 0 || sheet.x_sum(set) == sheet.q * weights.sigma[set]
}

pub fn r_may_stand(sheet: &Sheet, weights: &Weights, j: usize) -> bool {
    sheet.winners[j].r == 0 || sheet.winners[j].x == sheet.q * weights.rho[j]
}

pub fn t_may_stand(sheet: &Sheet, j: usize) -> bool {
    sheet.winners[j].t == 0 || sheet.winners[j].x == 0
}

/// Question 16: the discard byte names no client above n.
pub fn question_16(book: &Book, discard: u8) -> bool {
    usize::from(discard) >> book.status.len() == 0
}
