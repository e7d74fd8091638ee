//! What ours hands out for a book of six clients, in Rust.

/// The greatest value, and σ of each set of clients, by which it falls without them.
pub struct Surpluses {
    pub value: u64,
    pub sigma: [u64; 64],
}

impl Surpluses {
    /// From the greatest values by discard byte.
    pub fn of(values: [u64; 64]) -> Self {
        Surpluses { value: values[0], sigma: values.map(|without| values[0] - without) }
    }

    /// The sum of all 64 greatest values.
    pub fn sum(&self) -> u64 {
        64 * self.value - self.sigma.iter().sum::<u64>()
    }
}
