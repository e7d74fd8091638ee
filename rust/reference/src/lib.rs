//! A plain second implementation of the certifier for base prices, for tests.
//!
//! It is written from docs/FORMAT.md alone, by the slowest obvious method: every combination of a
//! book is listed, and every maximum is a maximum over that list. Read the files in this order:
//!
//! - `bytes`: big-endian numbers
//! - `book`, `sheet`: the two layouts
//! - `combinations`: the list of all combinations, and greatest values over it
//! - `weights`: v, σ and ρ for a book and its proposed winners
//! - `questions`: questions 1 to 16, a function each
//! - `answer`: the order of the questions, the answers and the price list
//! - `admissible`: admissible discounts, from the definition and not from sets

#![forbid(unsafe_code)]

pub mod admissible;
pub mod answer;
pub mod book;
pub mod bytes;
pub mod combinations;
pub mod questions;
pub mod sheet;
pub mod weights;

pub use admissible::{admissible, Discounts};
pub use answer::{book_refusal, greatest_value, judge, price_list, Answer, Outcome};
pub use book::{Bid, Book};
pub use sheet::{Multipliers, Sheet, Winner};
pub use weights::Weights;
