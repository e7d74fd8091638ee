//! σ of sets of clients, by the values of all sets of clients.

use super::places::{ALL, SETS};
use super::{lists, numbers};

/// What the value of all exceeds the value without each set of a list of clients by, by the sets' numbers.
pub fn sigma_by(clients: &[u8], values: &[u64; SETS]) -> [u64; SETS] {
    let discards = lists::discards(clients);
    let end = numbers::sets_end(clients.len());
    let mut sigma = [0; SETS];
    for set in 1..end {
        let kept = ALL - usize::from(discards[set]);
        sigma[set] = values[ALL].saturating_sub(values[kept]);
    }
    sigma
}
