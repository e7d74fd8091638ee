//! The hours that a set's clients take, in lanes.

use super::lanes;

/// The hours used once a set's clients have taken theirs: their least hours, or those of their heaviest bids.
#[derive(Clone, Copy)]
pub struct Taken {
    pub least: u64,
    pub heads: u64,
}

impl Taken {
    /// The same of the set with one client more.
    pub fn with_client(self, least: u64, head: u64) -> Taken {
        Taken { least: with_hours(self.least, least), heads: with_hours(self.heads, head) }
    }
}

/// One client's hours more; where a guard is set already, it stays so.
fn with_hours(before: u64, hours: u64) -> u64 {
    if lanes::fit(before) {
        before + hours
    } else {
        before
    }
}
