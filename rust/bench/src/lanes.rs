//! Hours of up to four kinds in one number, a lane of 16 bits for each. Instead of the hours left there are those used, 255 less those
//! left: a bid asks for more than is left exactly where a lane goes over 255, which sets its guard bit.

const GUARDS: u64 = 0x0100_0100_0100_0100;
/// Every lane at 255: nothing is left.
const FULL: u64 = 0x00ff_00ff_00ff_00ff;

pub fn in_lanes(hours: [u8; 4]) -> u64 {
    hours.iter().rev().fold(0, |lanes, &hours| lanes << 16 | u64::from(hours))
}

/// The hours used where these are left.
pub fn used(left: [u8; 4]) -> u64 {
    FULL - in_lanes(left)
}

/// The guards that are set: 0 where the hours used are within the supply.
#[inline(always)]
pub fn guards(used: u64) -> u64 {
    used & GUARDS
}

#[inline(always)]
pub fn fits(used: u64) -> bool {
    guards(used) == 0
}

/// Lane by lane the smaller of two: the guards keep the lanes apart, and one stays where the first is no less.
pub fn least(a: u64, b: u64) -> u64 {
    let no_less = guards((a | GUARDS) - b);
    let lanes = no_less - (no_less >> 8);
    (b & lanes) | (a & (FULL - lanes))
}
