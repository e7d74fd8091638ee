//! Exact fractions, always in lowest terms with a denominator above zero.

use std::cmp::Ordering;
use std::ops::{Add, Div, Mul, Neg, Sub};

#[derive(Clone, Copy, Debug, PartialEq, Eq)]
pub struct Fraction {
    pub top: i128,
    pub bottom: i128,
}

pub const ZERO: Fraction = Fraction { top: 0, bottom: 1 };

fn gcd(a: i128, b: i128) -> i128 {
    if b == 0 {
        a.abs()
    } else {
        gcd(b, a % b)
    }
}

/// The least common multiple of numbers above zero.
pub fn common_multiple(numbers: impl IntoIterator<Item = i128>) -> i128 {
    numbers.into_iter().fold(1, |m, n| m / gcd(m, n) * n)
}

impl Fraction {
    /// `bottom` is not zero.
    pub fn new(top: i128, bottom: i128) -> Fraction {
        let divisor = gcd(top, bottom) * bottom.signum();
        Fraction {
            top: top / divisor,
            bottom: bottom / divisor,
        }
    }

    pub fn whole(n: i128) -> Fraction {
        Fraction { top: n, bottom: 1 }
    }

    pub fn sign(self) -> i128 {
        self.top.signum()
    }

    /// The fraction times `scale`, a multiple of its denominator.
    pub fn scaled(self, scale: i128) -> i128 {
        self.top * (scale / self.bottom)
    }
}

impl Add for Fraction {
    type Output = Fraction;
    fn add(self, other: Fraction) -> Fraction {
        Fraction::new(
            self.top * other.bottom + other.top * self.bottom,
            self.bottom * other.bottom,
        )
    }
}

impl Neg for Fraction {
    type Output = Fraction;
    fn neg(self) -> Fraction {
        Fraction {
            top: -self.top,
            bottom: self.bottom,
        }
    }
}

impl Sub for Fraction {
    type Output = Fraction;
    fn sub(self, other: Fraction) -> Fraction {
        self + -other
    }
}

impl Mul for Fraction {
    type Output = Fraction;
    fn mul(self, other: Fraction) -> Fraction {
        Fraction::new(self.top * other.top, self.bottom * other.bottom)
    }
}

impl Div for Fraction {
    type Output = Fraction;
    fn div(self, other: Fraction) -> Fraction {
        Fraction::new(self.top * other.bottom, self.bottom * other.top)
    }
}

impl std::iter::Sum for Fraction {
    fn sum<I: Iterator<Item = Fraction>>(fractions: I) -> Fraction {
        fractions.fold(ZERO, Add::add)
    }
}

impl Ord for Fraction {
    fn cmp(&self, other: &Fraction) -> Ordering {
        (self.top * other.bottom).cmp(&(other.top * self.bottom))
    }
}

impl PartialOrd for Fraction {
    fn partial_cmp(&self, other: &Fraction) -> Option<Ordering> {
        Some(self.cmp(other))
    }
}
