//! Books, and for each an exact sheet that must be accepted: random ones for tests, and for `call propose`
//! the sheet of any sound book.
//!
//! - `rng`: a seeded generator of numbers
//! - `write`: books and sheets as bytes
//! - `by_hand`: the book and the sheet of worked calls, and a writer of others like them
//! - `books`, `planted`: random sound books
//! - `full`: full books of seven kinds
//! - `fraction`, `simplex`, `nearest`: exact arithmetic, the greatest sum of discounts with its
//!   multipliers, and the discounts nearest to the σ(j) with theirs
//! - `sheets`: acceptable sheets

#![forbid(unsafe_code)]

pub mod books;
pub mod by_hand;
pub mod fraction;
pub mod full;
pub mod nearest;
pub mod planted;
pub mod rng;
pub mod sheets;
pub mod simplex;
pub mod write;

pub use books::{random_book, small_book};
pub use rng::Rng;
pub use sheets::{acceptable_sheet, dressed, first_sheet, weighed, winning_combinations};
