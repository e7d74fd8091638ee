//! Text as rows of words, each word with its line and column, and faults that name them.

use std::fmt;

/// A word and where it begins. Lines and columns count from 1, columns in characters.
#[derive(Clone, Debug, PartialEq, Eq)]
pub struct Word {
    pub text: String,
    pub line: usize,
    pub column: usize,
}

/// The words of a line that has any, and the column after the last.
#[derive(Clone, Debug, PartialEq, Eq)]
pub struct Row {
    pub words: Vec<Word>,
    pub end: usize,
}

/// What is wrong with a text, and where.
#[derive(Clone, Debug, PartialEq, Eq)]
pub struct Fault {
    pub line: usize,
    pub column: usize,
    pub what: String,
}

/// What a part of a text says, or every fault in it. No fault at all: it was told elsewhere.
pub type Found<T> = Result<T, Vec<Fault>>;

impl fmt::Display for Fault {
    fn fmt(&self, out: &mut fmt::Formatter) -> fmt::Result {
        write!(out, "{}:{}: {}", self.line, self.column, self.what)
    }
}

impl Word {
    /// A fault at this word.
    pub fn fault(&self, what: impl Into<String>) -> Fault {
        Fault {
            line: self.line,
            column: self.column,
            what: what.into(),
        }
    }

    /// The word as a message quotes it: short, and without odd characters.
    pub fn quoted(&self) -> String {
        quoted(&self.text)
    }

    /// Whether it stands where a number stands.
    pub fn is_value(&self) -> bool {
        self.text
            .starts_with(|c: char| c.is_ascii_digit() || c == '-' || c == '+')
    }
}

/// A word in quotes: its first 30 characters, on one line.
pub fn quoted(word: &str) -> String {
    let start: String = word.chars().take(30).collect();
    let more = if start.len() < word.len() { "..." } else { "" };
    format!("'{}{more}'", start.escape_debug())
}

/// The rows of a text, and a fault for each line with a byte outside its comment that is no UTF-8.
/// `#` begins a comment; lines with no word are left out.
pub fn rows(bytes: &[u8]) -> (Vec<Row>, Vec<Fault>) {
    let bytes = bytes.strip_prefix(b"\xef\xbb\xbf").unwrap_or(bytes);
    let mut faults = Vec::new();
    let mut rows = Vec::new();
    for (at, line) in bytes.split(|&byte| byte == b'\n').enumerate() {
        let said = line.split(|&byte| byte == b'#').next().unwrap_or(&[]);
        match std::str::from_utf8(said) {
            Ok(said) => rows.push(row(said, at + 1)),
            Err(error) => faults.push(no_text(said, error.valid_up_to(), at + 1)),
        }
    }
    rows.retain(|row| !row.words.is_empty());
    (rows, faults)
}

/// The fault for a byte that is part of no character.
fn no_text(line: &[u8], at: usize, number: usize) -> Fault {
    let before = String::from_utf8_lossy(&line[..at]);
    Fault {
        line: number,
        column: before.chars().count() + 1,
        what: "a byte that is no UTF-8 text".to_string(),
    }
}

fn row(said: &str, number: usize) -> Row {
    let mut words: Vec<Word> = Vec::new();
    let mut inside = false;
    for (at, c) in said.chars().enumerate() {
        let blank = c.is_whitespace();
        match words.last_mut() {
            Some(word) if inside && !blank => word.text.push(c),
            _ if !blank => words.push(Word {
                text: c.to_string(),
                line: number,
                column: at + 1,
            }),
            _ => {}
        }
        inside = !blank;
    }
    let end = words
        .last()
        .map_or(1, |word| word.column + word.text.chars().count());
    Row { words, end }
}
