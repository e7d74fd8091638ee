//! One input at a time put to the reference and to another implementation.

use crate::tally::Counts;
use crate::{Example, Input, Memory};
use reference::answer::{answer, greatest_by, outcome, text};
use reference::Answer;

/// An implementation to compare with the reference.
pub trait Certifier {
    fn judge(&self, input: &[u8]) -> Answer;
    fn greatest_value(&self, book: &[u8], discard: u8) -> (u8, u64);
    fn price_list(&self, input: &[u8]) -> String;
}

/// A program that prints the price list of its standard input.
pub trait Printer {
    fn print(&self, input: &[u8]) -> Vec<u8>;
}

/// What is shown inputs, one after the other. It gives the right answer's number, or says why no
/// more need be shown.
pub trait Examiner {
    /// Many inputs will have this example's book.
    fn share(&mut self, example: &Example);
    fn call(&mut self, input: &Input) -> Result<u8, String>;
    /// A call that also goes through the program, where there is one.
    fn call_and_print(&mut self, input: &Input) -> Result<u8, String>;
    /// A question for a greatest value, which is given too.
    fn value(&mut self, way: &'static str, book: &[u8], discard: u8) -> Result<(u8, u64), String>;
}

/// Both sides, and what has been compared so far.
pub struct Comparison<'a> {
    other: &'a dyn Certifier,
    /// A program that answers too, and to every how manieth call.
    program: Option<(&'a dyn Printer, u64)>,
    memory: Memory,
    pub counts: Counts,
}

impl<'a> Comparison<'a> {
    pub fn with(other: &'a dyn Certifier) -> Comparison<'a> {
        Comparison {
            other,
            program: None,
            memory: Memory::default(),
            counts: Counts::default(),
        }
    }

    /// Puts every `every`-th call through the program too.
    pub fn and_program(mut self, program: &'a dyn Printer, every: u64) -> Comparison<'a> {
        self.program = Some((program, every.max(1)));
        self
    }

    fn print(&mut self, input: &Input, lines: &str, number: u8) -> Result<(), String> {
        if let Some((program, _)) = self.program {
            let printed = program.print(&input.bytes);
            let printed = String::from_utf8_lossy(&printed);
            let way = format!("{}, the program", input.way);
            same(&way, &input.bytes, &lines, &&*printed)?;
            self.counts.printed.note(input.way, number);
        }
        Ok(())
    }
}

impl Examiner for Comparison<'_> {
    fn share(&mut self, example: &Example) {
        self.memory.share(&example.book, &example.values);
    }

    /// Compares the answers to a call, field by field, and the printed text.
    fn call(&mut self, input: &Input) -> Result<u8, String> {
        let bytes = &input.bytes;
        let outcome = outcome(bytes, |book| self.memory.values(book));
        let expected = answer(&outcome);
        same(input.way, bytes, &expected, &self.other.judge(bytes))?;
        let lines = text(&outcome);
        same(input.way, bytes, &lines, &self.other.price_list(bytes))?;
        self.counts.calls += 1;
        self.counts.full_calls += u64::from(is_over_full(bytes, expected.number));
        self.counts.tally.note(input.way, expected.number);
        if expected.number == 0 {
            self.counts.accepted.note(bytes, expected.w);
        }
        match self.program {
            Some((_, every)) if self.counts.calls % every == 0 => {
                self.print(input, &lines, expected.number)?
            }
            _ => (),
        }
        Ok(expected.number)
    }

    fn call_and_print(&mut self, input: &Input) -> Result<u8, String> {
        let printed = self.counts.printed.count();
        let number = self.call(input)?;
        if self.counts.printed.count() == printed {
            let outcome = outcome(&input.bytes, |book| self.memory.values(book));
            self.print(input, &text(&outcome), number)?;
        }
        Ok(number)
    }

    fn value(&mut self, way: &'static str, book: &[u8], discard: u8) -> Result<(u8, u64), String> {
        let expected = greatest_by(book, discard, |book| self.memory.values(book));
        let given = self.other.greatest_value(book, discard);
        let with_byte = format!("{way}, discard byte {discard}");
        same(&with_byte, book, &expected, &given)?;
        self.counts.values += 1;
        let full = expected.0 == 0 && is_over_full(book, 0);
        self.counts.full_values += u64::from(full);
        self.counts.tally.note(way, expected.0);
        Ok(expected)
    }
}

/// Whether an input with this answer has a sound book of 48 bids.
fn is_over_full(bytes: &[u8], number: u8) -> bool {
    let count = |at: usize| bytes.get(at).map_or(0, |&byte| usize::from(byte));
    let kinds = count(3);
    let clients = count(4 + 3 * kinds);
    !(1..=5).contains(&number) && count(5 + 3 * kinds + clients) == 48
}

fn same<T: PartialEq + std::fmt::Debug>(
    way: &str,
    bytes: &[u8],
    expected: &T,
    given: &T,
) -> Result<(), String> {
    if given == expected {
        return Ok(());
    }
    let hex: String = bytes
        .iter()
        .take(2_000)
        .map(|byte| format!("{byte:02x}"))
        .collect();
    Err(format!(
        "{way}: {expected:?} expected, {given:?} given, for {} bytes {hex}",
        bytes.len()
    ))
}
