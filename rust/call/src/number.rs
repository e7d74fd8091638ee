//! Numbers in a text: decimal digits, with a minus sign where one may stand.

use crate::words::{Fault, Word};

/// The most that one, two, four and eight bytes hold.
pub const BYTE: i128 = 0xff;
pub const TWO_BYTES: i128 = 0xffff;
pub const FOUR_BYTES: i128 = 0xffff_ffff;
pub const EIGHT_BYTES: i128 = 0xffff_ffff_ffff_ffff;

/// A number from `least` to `most`, which stands after `name`.
pub fn number(name: &str, word: &Word, least: i128, most: i128) -> Result<i128, Fault> {
    let (minus, digits) = match word.text.strip_prefix('-') {
        Some(digits) => (true, digits),
        None => (false, word.text.as_str()),
    };
    if digits.is_empty() || !digits.bytes().all(|digit| digit.is_ascii_digit()) {
        return Err(word.fault(format!(
            "'{name}' takes a number, and {} is no whole number",
            word.quoted()
        )));
    }
    // What is too long for an i128 is far out of every range.
    let size: i128 = digits.parse().unwrap_or(i128::MAX);
    let value = if minus { -size } else { size };
    if value > most {
        return Err(word.fault(format!(
            "{} is more than {most}, the most that fits here",
            word.quoted()
        )));
    }
    if value < least {
        return Err(word.fault(format!(
            "{} is less than {least}, the least that fits here",
            word.quoted()
        )));
    }
    Ok(value)
}
