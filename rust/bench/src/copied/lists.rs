//! Sets of a list of clients.

use super::places::{CLIENTS, SETS};

/// Whether the list has at most six clients, up to n and strictly rising.
pub fn is_rising(clients: &[u8], n: usize) -> bool {
    if CLIENTS < clients.len() {
        return false;
    }
    let mut ok = true;
    let mut last = 0;
    for &client in clients {
        let next = usize::from(client);
        ok &= (last < next) & (next <= n);
        last = next;
    }
    ok
}

/// After the entries of the first `end` sets each of them once more, with one bit.
fn double(discards: &mut [u8; SETS], end: usize, bit: u8) {
    for set in 0..end {
        discards[end + set] = discards[set] + bit;
    }
}

/// The clients that are picked, for all sets of the list by their numbers: with each client the sets double.
pub fn discards(clients: &[u8]) -> [u8; SETS] {
    let mut discards = [0; SETS];
    for (j, &client) in clients.iter().enumerate() {
        double(&mut discards, 1 << j, 1 << (client - 1));
    }
    discards
}
