//! What a text says: a book, perhaps a sheet, and versions and lengths where it names them.

use reference::{Book, Multipliers, Sheet};

/// Version and length, where the text names them. Else the version is 1 and the length the formula's.
#[derive(Clone, Copy, Debug, Default, PartialEq, Eq)]
pub struct Head {
    pub version: Option<i128>,
    pub length: Option<i128>,
}

#[derive(Clone, Debug, PartialEq, Eq)]
pub struct Draft {
    pub head: Head,
    pub book: Book,
    pub sheet: Option<(Head, Sheet)>,
}

impl Draft {
    pub fn empty() -> Draft {
        Draft {
            head: Head::default(),
            book: Book {
                supply: Vec::new(),
                reserve: Vec::new(),
                status: Vec::new(),
                bids: Vec::new(),
            },
            sheet: None,
        }
    }
}

/// A sheet with no winners yet.
pub fn sheet_without_winners(q: i128, s: i128, g: i128) -> Sheet {
    Sheet {
        q,
        s,
        g,
        winners: Vec::new(),
        sets: vec![Multipliers::default()],
    }
}
