//! What accepted calls were like: how many kinds of hour, clients and winners they had.

use std::fmt;

/// Accepted calls by K, by n and by w; place 0 of the first two stays empty.
#[derive(Clone, Debug, Default)]
pub struct Shapes {
    pub kinds: [u64; 5],
    pub clients: [u64; 7],
    pub winners: [u64; 7],
}

impl Shapes {
    /// Notes an accepted call.
    pub fn note(&mut self, call: &[u8], w: u8) {
        let kinds = usize::from(call[3]);
        let clients = usize::from(call[4 + 3 * kinds]);
        self.kinds[kinds] += 1;
        self.clients[clients] += 1;
        self.winners[usize::from(w)] += 1;
    }

    /// Whether there was one with each K, each n and each w.
    pub fn are_all_there(&self) -> bool {
        let counts = [&self.kinds[1..], &self.clients[1..], &self.winners[..]];
        counts.iter().all(|counts| !counts.contains(&0))
    }
}

impl fmt::Display for Shapes {
    fn fmt(&self, out: &mut fmt::Formatter) -> fmt::Result {
        let (kinds, clients) = (&self.kinds[1..], &self.clients[1..]);
        write!(
            out,
            "accepted calls by K from 1: {kinds:?}, by n from 1: {clients:?}, by w from 0: {:?}",
            self.winners
        )
    }
}
