//! From a text to a call, or to all that is wrong with the text.

use crate::bytes;
use crate::draft::Draft;
use crate::line::line_of;
use crate::reader::Reader;
use crate::words::{rows, Fault, Found};

/// What a text says. Where it has faults the draft is not to be used.
pub struct Reading {
    pub draft: Draft,
    /// By line and column.
    pub faults: Vec<Fault>,
    pub warnings: Vec<Fault>,
}

/// How many bytes of a book are its version and its length.
const HEAD: usize = 3;

/// Whether bytes are text: there are some, and none of the first three is a control character but a blank. A book that passes
/// question 2 has a length below 512, so its second byte is 0 or 1, which no text has.
pub fn is_text(bytes: &[u8]) -> bool {
    let head = &bytes[..bytes.len().min(HEAD)];
    let may_stand = |byte: &u8| byte.is_ascii_whitespace() || !byte.is_ascii_control();
    !bytes.is_empty() && head.iter().all(may_stand)
}

/// The bytes of the call that a text says, or all faults in it.
pub fn assemble(text: &[u8]) -> Found<Vec<u8>> {
    read(text).bytes()
}

impl Reading {
    pub fn bytes(self) -> Found<Vec<u8>> {
        match self.faults.is_empty() {
            true => Ok(bytes::call(&self.draft)),
            false => Err(self.faults),
        }
    }
}

/// Reads a text to its end, whatever is wrong with it.
pub fn read(text: &[u8]) -> Reading {
    let (rows, no_text) = rows(text);
    let blank = rows.is_empty() && no_text.is_empty();
    let mut reader = Reader::new(!no_text.is_empty());
    for row in rows {
        match line_of(row) {
            Ok((part, line)) => reader.take(part, &line),
            Err(word) => reader.lose(&word),
        }
    }
    let mut reading = reader.end();
    reading.faults.extend(no_text);
    if blank {
        reading.faults.push(Fault {
            line: 1,
            column: 1,
            what: "the text has no line but blank ones and comments".to_string(),
        });
    }
    reading
        .faults
        .sort_by_key(|fault| (fault.line, fault.column));
    reading
}
