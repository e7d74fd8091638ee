//! Judging a sheet in Rust: questions 1 to 15 in their order, and the prices.

use crate::book::{self, Book};
use crate::certificate::{self, Bounds};
use crate::sheet::{self, Sheet};
use crate::weighing::{self, Chosen};
use certifier::Prices;

fn winning_amount(book: &Book, sheet: &Sheet, j: usize) -> u64 {
    u64::from(book.amount[usize::from(sheet.bids[j]) - 1])
}

fn above_reserves(book: &Book, sheet: &Sheet) -> [u64; 6] {
    let mut rho = [0; 6];
    for j in 0..sheet.w {
        rho[j] = winning_amount(book, sheet, j) - book.reserves(usize::from(sheet.bids[j]) - 1);
    }
    rho
}

fn accepted(book: &Book, sheet: &Sheet) -> Prices {
    let mut prices = [0; 6];
    for j in 0..sheet.w {
        prices[j] = sheet.q * winning_amount(book, sheet, j) - sheet.x[j];
    }
    Prices { number: 0, w: sheet.w as u32, q: sheet.q as u32, prices }
}

/// With σ by either search, or none where question 9 is answered no.
fn judged(input: &[u8], sigma_of: impl Fn(&Book, &Chosen) -> Option<[u64; 64]>) -> Result<Prices, u8> {
    let book = book::read(input)?;
    let sheet = sheet::read(&input[book.length()..], book.clients).ok_or(6)?;
    if !certificate::in_range(&sheet) {
        return Err(7);
    }
    let chosen = weighing::combination(&book, &sheet).ok_or(8)?;
    let sigma = sigma_of(&book, &chosen).ok_or(9)?;
    let rho = above_reserves(&book, &sheet);
    certificate::judged(&sheet, &Bounds { sigma, rho })?;
    Ok(accepted(&book, &sheet))
}

fn refused(number: u8) -> Prices {
    Prices { number: u32::from(number), w: 0, q: 0, prices: [0; 6] }
}

/// The answer to a call, as that of the proved library.
pub fn judge_sheet(input: &[u8]) -> Prices {
    judged(input, weighing::in_one_pass).unwrap_or_else(refused)
}

/// The same with the old search.
pub fn judge_set_by_set(input: &[u8]) -> Prices {
    judged(input, weighing::set_by_set).unwrap_or_else(refused)
}
