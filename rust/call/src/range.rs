//! A number out of its range, in words.

use std::fmt;

/// A number and the bound that it breaks.
pub struct Outside {
    pub value: i128,
    pub bound: i128,
    /// `least` or `most`.
    pub side: &'static str,
}

/// The number and its bound, if it is out of its range.
pub fn outside(value: i128, least: i128, most: i128) -> Option<Outside> {
    let (bound, side) = match (value < least, value > most) {
        (true, _) => (least, "least"),
        (_, true) => (most, "most"),
        _ => return None,
    };
    Some(Outside { value, bound, side })
}

impl Outside {
    pub fn by(&self) -> i128 {
        (self.value - self.bound).abs()
    }
}

impl fmt::Display for Outside {
    fn fmt(&self, out: &mut fmt::Formatter) -> fmt::Result {
        let more = match self.side {
            "most" => "more",
            _ => "less",
        };
        write!(
            out,
            "{}, {} {more} than {}",
            self.value,
            self.by(),
            self.bound
        )
    }
}

/// "1 byte" or "2 bytes".
pub fn bytes(count: usize) -> String {
    match count {
        1 => "1 byte".to_string(),
        _ => format!("{count} bytes"),
    }
}
