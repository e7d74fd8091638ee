//! The hours of up to four kinds in one number, a lane of 16 bits for each kind, the first kind lowest.

/// 255 in each lane.
const FULL: u64 = 0x00ff_00ff_00ff_00ff;
/// Bit 8 of each lane.
const GUARDS: u64 = 0x0100_0100_0100_0100;
/// What the second, third and fourth lane count.
const SECOND: u64 = 1 << 16;
const THIRD: u64 = 1 << 32;
const FOURTH: u64 = 1 << 48;

/// Every bit of the first k lanes.
fn lanes_to(k: usize) -> u64 {
    if k < 4 { (1 << (16 * k)) - 1 } else { u64::MAX }
}

/// The hours asked of the first k kinds; those past them are cut off.
pub fn packed(k: usize, asked: [u8; 4]) -> u64 {
    let [a, b, c, d] = asked;
    (u64::from(a) + u64::from(b) * SECOND + u64::from(c) * THIRD + u64::from(d) * FOURTH) & lanes_to(k)
}

/// The hours used where these are left.
pub fn used(left: [u8; 4]) -> u64 {
    FULL - packed(4, left)
}

/// Whether the hours used fit the supply: every guard is clear.
pub fn fit(after: u64) -> bool {
    after & GUARDS == 0
}

/// What each lane of one number exceeds the same lane of the other by.
fn over(a: u64, b: u64) -> u64 {
    let apart = a + GUARDS - b;
    let above = apart & GUARDS;
    apart & (above - (above >> 8))
}

/// Lane by lane the smaller of two.
pub fn least(a: u64, b: u64) -> u64 {
    a.saturating_sub(over(a, b))
}
