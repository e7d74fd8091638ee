//! The lines of the text form: their first words in order, and the names that each kind of line has.

/// How many numbers stand after a name.
#[derive(Clone, Copy, Debug, PartialEq, Eq)]
pub enum Takes {
    Nothing,
    One,
    Many,
}

/// A kind of line.
pub struct Form {
    pub keyword: &'static str,
    /// Whether a text has at most one such line.
    pub once: bool,
    pub names: &'static [(&'static str, Takes)],
}

use Takes::{Many, Nothing, One};

/// The kinds of line, in the order in which they stand.
pub const FORMS: [Form; 7] = [
    Form {
        keyword: "book",
        once: true,
        names: &[("version", One), ("length", One)],
    },
    Form {
        keyword: "kind",
        once: false,
        names: &[("supply", One), ("reserve", One)],
    },
    Form {
        keyword: "client",
        once: false,
        names: &[
            ("standing", Nothing),
            ("withdrawn", Nothing),
            ("status", One),
        ],
    },
    Form {
        keyword: "bid",
        once: false,
        names: &[("client", One), ("hours", Many), ("amount", One)],
    },
    Form {
        keyword: "sheet",
        once: true,
        names: &[
            ("q", One),
            ("s", One),
            ("G", One),
            ("version", One),
            ("length", One),
        ],
    },
    Form {
        keyword: "winner",
        once: false,
        names: &[("bid", One), ("X", One), ("Z", One), ("R", One), ("T", One)],
    },
    Form {
        keyword: "set",
        once: false,
        names: &[("winners", Many), ("Y", One), ("U", One)],
    },
];

impl Form {
    /// The kind of line that begins with this word, and its place in the order.
    pub fn of(keyword: &str) -> Option<(usize, &'static Form)> {
        let mut forms = FORMS.iter().enumerate();
        forms.find(|(_, form)| form.keyword == keyword)
    }

    /// What a name of the line takes; nothing where it is no name of it.
    pub fn takes(&self, name: &str) -> Option<Takes> {
        let mut names = self.names.iter();
        names
            .find(|(known, _)| *known == name)
            .map(|&(_, takes)| takes)
    }

    /// The names, one after the other.
    pub fn listed(&self) -> String {
        let names: Vec<&str> = self.names.iter().map(|&(name, _)| name).collect();
        names.join(", ")
    }
}

/// The first words of lines, one after the other.
pub fn keywords() -> String {
    let keywords: Vec<&str> = FORMS.iter().map(|form| form.keyword).collect();
    keywords.join(", ")
}
