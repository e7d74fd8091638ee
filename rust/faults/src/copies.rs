//! The faulty copies of the reference that the build has made.

use compare::Memory;
use reference::Answer;

/// A copy's answers. Where the fault leaves combinations as they are, the greatest values may be kept ones.
pub struct Copied {
    pub call: fn(&[u8], &mut Memory) -> (Answer, String),
    pub value: fn(&[u8], u8, &mut Memory) -> (u8, u64),
}

macro_rules! copied {
    (kept $name:ident) => {
        copied!($name, |memory, book| memory.values(book))
    };
    (own $name:ident) => {
        copied!($name, |_memory, book| $name::combinations::Values::of(book))
    };
    ($name:ident, |$memory:ident, $book:ident| $values:expr) => {
        Copied {
            call: |input, $memory| {
                let outcome = $name::answer::outcome(input, |$book| $values);
                let answer = $name::answer::answer(&outcome);
                let same = Answer { number: answer.number, w: answer.w, q: answer.q, prices: answer.prices };
                (same, $name::answer::text(&outcome))
            },
            value: |book, discard, $memory| $name::answer::greatest_by(book, discard, |$book| $values),
        }
    };
}

include!(concat!(env!("OUT_DIR"), "/copies.rs"));
