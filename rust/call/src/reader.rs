//! Reads the lines of a text one after the other: their order, their numbers, and all that is wrong with them. What each kind
//! of line says is read in `lines`.

use crate::assemble::Reading;
use crate::draft::Draft;
use crate::form::{keywords, Form, FORMS};
use crate::line::Line;
use crate::number::number;
use crate::words::{Fault, Found, Word};

pub struct Reader {
    pub(crate) draft: Draft,
    pub(crate) faults: Vec<Fault>,
    warnings: Vec<Fault>,
    /// The place in `FORMS` of the last line, and which of them have stood.
    part: Option<usize>,
    pub(crate) seen: [bool; FORMS.len()],
    /// For each form the number that its next line has: from 1, and for winners from 0.
    pub(crate) next: [i128; FORMS.len()],
    /// Whether a line was not understood: then what hangs on counts of lines is not asked.
    pub(crate) lost: bool,
    /// Whether the book, or the sheet, has outgrown its bytes, which is told once.
    pub(crate) book_full: bool,
    pub(crate) sheet_full: bool,
    /// The sets named so far, each with its line.
    pub(crate) sets: Vec<(usize, usize)>,
}

impl Reader {
    pub fn new(lost: bool) -> Reader {
        Reader {
            draft: Draft::empty(),
            faults: Vec::new(),
            warnings: Vec::new(),
            part: None,
            seen: [false; FORMS.len()],
            next: [1; FORMS.len()],
            lost,
            book_full: false,
            sheet_full: false,
            sets: Vec::new(),
        }
    }

    pub fn end(self) -> Reading {
        Reading {
            draft: self.draft,
            faults: self.faults,
            warnings: self.warnings,
        }
    }

    /// A line whose first word begins no line.
    pub fn lose(&mut self, word: &Word) {
        self.lost = true;
        let said = format!(
            "{} begins no line; lines begin with {}",
            word.quoted(),
            keywords()
        );
        self.faults.push(word.fault(said));
    }

    /// A line of a form, by the form's place in the order.
    pub fn take(&mut self, part: usize, line: &Line) {
        let form = &FORMS[part];
        if form.once && self.seen[part] {
            let said = format!("a second {} line", form.keyword);
            self.faults.push(line.keyword.fault(said));
            return;
        }
        self.in_order(part, form, &line.keyword);
        self.faults.extend(line.strangers());
        match form.keyword {
            "book" => self.book(line),
            "kind" => self.kind(part, line),
            "client" => self.client(part, line),
            "bid" => self.bid(part, line),
            "sheet" => self.sheet(line),
            "winner" => self.winner(part, line),
            _ => self.set(line),
        }
        self.seen[part] = true;
    }

    /// That the line comes after no line of a later form.
    fn in_order(&mut self, part: usize, form: &Form, word: &Word) {
        if let Some(last) = self.part.filter(|&last| last > part) {
            let said = format!(
                "a {} line after a {} line; the order is {}",
                form.keyword,
                FORMS[last].keyword,
                keywords()
            );
            self.faults.push(word.fault(said));
        }
        self.part = Some(part);
    }

    /// What was found, or what stands in for it beside the faults.
    pub(crate) fn keep<T: Default>(&mut self, found: Found<T>) -> T {
        found.unwrap_or_else(|faults| {
            self.faults.extend(faults);
            T::default()
        })
    }

    /// Warns at a line, unless a line was lost, which may have counted.
    pub(crate) fn warn(&mut self, line: &Line, said: impl IntoIterator<Item = String>) {
        let said = said.into_iter().map(|what| line.keyword.fault(what));
        if !self.lost {
            self.warnings.extend(said);
        }
    }

    /// The line's own number, which may be left out, and is the next where it stands. After another one lines count from there.
    pub(crate) fn follows(&mut self, part: usize, line: &Line) {
        let next = self.next[part];
        self.next[part] = next + 1;
        let keyword = &line.keyword.text;
        let Some(word) = self.keep(line.own_number().map(Option::<&Word>::cloned)) else {
            return;
        };
        match number(keyword, &word, 0, i128::MAX - 1) {
            Err(fault) => self.faults.push(fault),
            Ok(own) => {
                self.next[part] = own + 1;
                if own != next && !self.lost {
                    let said = format!("{} where {keyword} {next} comes next", word.quoted());
                    self.faults.push(word.fault(said));
                }
            }
        }
    }
}
