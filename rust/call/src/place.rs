//! A place where a call fails a question: named numbers for programs, and words for people.

use crate::range::Outside;

/// The names are those of docs/CALLS.md: where it is (`byte`, `kind`, `client`, `bid`, `winner`, `set`), what stands
/// there (`is`, `left`, `right`), its bound (`least`, `most`) and by how much it is broken (`by`).
#[derive(Clone, Debug, PartialEq, Eq)]
pub struct Place {
    pub facts: Vec<(&'static str, i128)>,
    /// One line, or several.
    pub words: String,
}

impl Place {
    pub fn new(words: impl Into<String>) -> Place {
        Place {
            facts: Vec::new(),
            words: words.into(),
        }
    }

    /// A place at a byte, counted from 0.
    pub fn at(byte: usize, words: impl Into<String>) -> Place {
        Place::new(words).of("byte", byte)
    }

    /// The same with a count or a number of something.
    pub fn of(self, name: &'static str, number: usize) -> Place {
        self.with(name, number as i128)
    }

    /// The same with a figure.
    pub fn with(mut self, name: &'static str, figure: i128) -> Place {
        self.facts.push((name, figure));
        self
    }

    /// The same with a figure, the bound that it breaks, and by how much.
    pub fn beyond(self, outside: &Outside) -> Place {
        self.with("is", outside.value)
            .with(outside.side, outside.bound)
            .with("by", outside.by())
    }
}
