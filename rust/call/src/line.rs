//! One line of the text form: a keyword, numbers of its own, then fields, each a name and its numbers.
//! What is asked of a line is answered with every fault that the answer has.

use crate::form::{Form, Takes};
use crate::number::number;
use crate::words::{Fault, Found, Row, Word};

pub struct Line {
    pub keyword: Word,
    form: &'static Form,
    /// The numbers right after the keyword.
    own: Vec<Word>,
    fields: Vec<Field>,
    end: usize,
}

struct Field {
    name: Word,
    /// None for a word that is no name of such a line.
    takes: Option<Takes>,
    values: Vec<Word>,
}

impl Field {
    /// Whether a word that is no name and no number is to be one of the field's numbers: `supply two`. Among
    /// many numbers it is a misspelt name where a number comes next: `hours 1 1 amont 90`.
    fn wants(&self, next_is_value: bool) -> bool {
        match self.takes {
            Some(Takes::One) => self.values.is_empty(),
            Some(Takes::Many) => self.values.is_empty() || !next_is_value,
            _ => false,
        }
    }
}

impl Line {
    /// The line of this form that the words after the keyword make.
    pub fn of(keyword: Word, words: &[Word], end: usize, form: &'static Form) -> Line {
        let mut own = Vec::new();
        let mut fields: Vec<Field> = Vec::new();
        for (at, word) in words.iter().enumerate() {
            let takes = form.takes(&word.text);
            let next_is_value = words.get(at + 1).is_some_and(Word::is_value);
            match fields.last_mut() {
                Some(field)
                    if takes.is_none() && (word.is_value() || field.wants(next_is_value)) =>
                {
                    field.values.push(word.clone())
                }
                None if word.is_value() => own.push(word.clone()),
                _ => fields.push(Field {
                    name: word.clone(),
                    takes,
                    values: Vec::new(),
                }),
            }
        }
        Line {
            keyword,
            form,
            own,
            fields,
            end,
        }
    }

    /// A fault for each word that is no name of the line, and for each name that stands twice.
    pub fn strangers(&self) -> Vec<Fault> {
        let fields = self.fields.iter().enumerate();
        let fault = |(at, field): (usize, &Field)| {
            let name = &field.name;
            let mut before = self.fields[..at].iter();
            if field.takes.is_none() {
                return Some(name.fault(format!(
                    "{} is no word of a {} line; its words are {}",
                    name.quoted(),
                    self.keyword.text,
                    self.form.listed()
                )));
            }
            before
                .any(|other| other.name.text == name.text)
                .then(|| name.fault(format!("{} stands twice", name.quoted())))
        };
        fields.filter_map(fault).collect()
    }

    /// Whether a word of the line is no name of it. Then what seems to be missing may stand there, misspelt.
    pub fn has_stranger(&self) -> bool {
        self.fields.iter().any(|field| field.takes.is_none())
    }

    /// That no second field stands in the line, for this reason.
    pub fn one_field_at_most(&self, reason: &str) -> Found<()> {
        match self.fields.get(1) {
            Some(second) if !self.has_stranger() => Err(vec![second.name.fault(reason)]),
            _ => Ok(()),
        }
    }

    fn field(&self, name: &str) -> Option<&Field> {
        self.fields.iter().find(|field| field.name.text == name)
    }

    /// A field's name and its numbers, where it stands in the line.
    pub fn values(&self, name: &str) -> Option<(&Word, &[Word])> {
        let field = self.field(name)?;
        Some((&field.name, &field.values))
    }

    /// Whether a word without numbers stands in the line.
    pub fn flag(&self, name: &str) -> Found<bool> {
        let Some(field) = self.field(name) else {
            return Ok(false);
        };
        match field.values.first() {
            None => Ok(true),
            Some(value) => Err(vec![value.fault(format!("no number stands after '{name}'"))]),
        }
    }

    /// The number of a field that may be left out.
    pub fn one(&self, name: &str, least: i128, most: i128) -> Found<Option<i128>> {
        match self.field(name) {
            None => Ok(None),
            Some(field) => {
                let values = numbers_of(field, Some(1), "one number", least, most)?;
                Ok(values.first().copied())
            }
        }
    }

    /// The number of a field that must be there.
    pub fn need(&self, name: &str, most: i128) -> Found<i128> {
        self.one(name, 0, most)?.ok_or_else(|| self.missing(name))
    }

    /// The numbers of a field that must be there: so many of them, if that is known.
    pub fn run(
        &self,
        name: &str,
        count: Option<usize>,
        expected: &str,
        most: i128,
    ) -> Found<Vec<i128>> {
        let field = self.field(name).ok_or_else(|| self.missing(name))?;
        numbers_of(field, count, expected, 0, most)
    }

    /// A fault just after the last word, unless the name may stand in the line, misspelt.
    fn missing(&self, name: &str) -> Vec<Fault> {
        let fault = Fault {
            line: self.keyword.line,
            column: self.end,
            what: format!("the {} line has no '{name}'", self.keyword.text),
        };
        match self.has_stranger() {
            true => Vec::new(),
            false => vec![fault],
        }
    }

    /// The number right after the keyword, where there is one. There are not two.
    pub fn own_number(&self) -> Found<Option<&Word>> {
        match self.own.get(1) {
            None => Ok(self.own.first()),
            Some(second) => {
                Err(vec![second.fault(format!(
                    "a second number after '{}'",
                    self.keyword.text
                ))])
            }
        }
    }

    /// That the line has no numbers of its own.
    pub fn no_own(&self) -> Found<()> {
        match self.own.first() {
            None => Ok(()),
            Some(word) => Err(vec![word.fault(format!(
                "no number stands right after '{}'",
                self.keyword.text
            ))]),
        }
    }
}

/// The line of a row whose first word is known; else that word.
pub fn line_of(row: Row) -> Result<(usize, Line), Word> {
    let mut words = row.words.into_iter();
    let keyword = words.next().expect("a row has a word");
    match Form::of(&keyword.text) {
        None => Err(keyword),
        Some((part, form)) => {
            let words: Vec<Word> = words.collect();
            Ok((part, Line::of(keyword, &words, row.end, form)))
        }
    }
}

fn numbers_of(
    field: &Field,
    count: Option<usize>,
    expected: &str,
    least: i128,
    most: i128,
) -> Found<Vec<i128>> {
    let name = &field.name.text;
    let count = count.unwrap_or(field.values.len());
    if let Some(extra) = field.values.get(count) {
        return Err(vec![extra.fault(format!("'{name}' takes {expected}"))]);
    }
    let there = match field.values.len() {
        there if there == count => return all(field, least, most),
        0 => "none stands".to_string(),
        1 => "1 stands".to_string(),
        there => format!("{there} stand"),
    };
    Err(vec![field.name.fault(format!(
        "'{name}' takes {expected}, and {there} here"
    ))])
}

/// All numbers of a field, or a fault for each that is none.
fn all(field: &Field, least: i128, most: i128) -> Found<Vec<i128>> {
    let values = field.values.iter();
    let (numbers, faults): (Vec<_>, Vec<_>) = values
        .map(|value| number(&field.name.text, value, least, most))
        .partition(Result::is_ok);
    match faults.is_empty() {
        true => Ok(numbers.into_iter().flatten().collect()),
        false => Err(faults.into_iter().filter_map(Result::err).collect()),
    }
}
