//! What must hold of accepted calls, tried on random ones with exact fractions and straight from the
//! definitions: every combination of lowered bids is looked at.
//!
//! - `pricing`: a book with its winners and their discounts as fractions
//! - `admissible`: the discounts are admissible, and question 11 says the same as the definition
//! - `others`: other discounts, near, far and on tight faces
//! - `best`: none of them does better (demand 3), and where discounts are not best, some do

mod admissible;
mod best;
mod others;
mod pricing;
