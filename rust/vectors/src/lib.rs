//! The test vectors of crates/vectors, and what must be printed for them: worked out by the reference, so by another method than the proved
//! code's.
//!
//! - `held`: a book as a value, as layer 1 hands it out; what it means and the question that it fails
//! - `answers`: what must be printed for a line
//! - `over_bytes`, `over_value`, `sheets`: the lines; `by_hand.txt` has those that were written by hand

#![forbid(unsafe_code)]

mod answers;
mod held;
mod over_bytes;
mod over_value;
mod sheets;

use generate::by_hand::hex;

/// A vector: the letter of an operation, what is tried, and the bytes.
pub struct Line {
    pub letter: char,
    pub label: String,
    pub bytes: Vec<u8>,
}

impl Line {
    fn new(letter: char, label: impl Into<String>, parts: &[&[u8]]) -> Line {
        Line { letter, label: label.into(), bytes: parts.concat() }
    }

    /// As the program reads it.
    fn given(&self) -> String {
        let digits: String = self.bytes.iter().map(|byte| format!("{byte:02X}")).collect();
        format!("{} {}: {digits}\n", self.letter, self.label)
    }

    /// As the program must print it.
    fn answered(&self) -> String {
        let numbers: String = answers::answer(self.letter, &self.bytes).iter().map(|number| format!(" {number}")).collect();
        format!("{} {}:{numbers}\n", self.letter, self.label)
    }
}

fn by_hand() -> Vec<Line> {
    let line = |text: &str| {
        let (head, bytes) = text.split_once(": ").expect("a colon and a space");
        let (letter, label) = head.split_once(' ').expect("a letter and a label");
        Line { letter: letter.chars().next().expect("a letter"), label: label.into(), bytes: hex(bytes) }
    };
    include_str!("by_hand.txt").lines().map(line).collect()
}

/// All lines.
pub fn lines() -> Vec<Line> {
    let mut all = by_hand();
    all.extend(over_bytes::lines());
    all.extend(over_value::lines());
    all.extend(sheets::lines());
    all
}

/// Standard input, and what must be written to standard output.
pub fn texts() -> (String, String) {
    let all = lines();
    (all.iter().map(Line::given).collect(), all.iter().map(Line::answered).collect())
}
