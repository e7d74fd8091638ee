//! How many there are of what the search looks up.

/// How many clients there are at the most, and rows with nobody's, which is row 0.
pub const CLIENTS: usize = 6;
pub const ROWS: usize = 7;
/// How many bids a row has room for.
pub const ROW_BIDS: usize = 8;
/// How many sets of clients there are, and the set of all.
pub const SETS: usize = 64;
pub const ALL: usize = 63;
