//! Least hours: each client's are taken off its bids, and handed back.

use super::places::ROWS;
use super::row::Row;

/// One row.
fn settle(row: &mut Row) -> u64 {
    let least = row.least_hours();
    row.take_off(least);
    least
}

/// All clients' rows.
pub fn settle_all(rows: &mut [Row; ROWS]) -> [u64; ROWS] {
    let mut leasts = [0u64; ROWS];
    for c in 1..ROWS {
        leasts[c] = settle(&mut rows[c]);
    }
    leasts
}
