//! Every edge that docs/FORMAT.md names, as fixed inputs with the numbers that their answers must
//! have. The numbers are worked out from that page and not by any implementation.
//!
//! - `books`: questions 1 to 5
//! - `sheets`: questions 6 to 8, and the seven lengths
//! - `balances`: questions 9 to 15
//! - `discards`: question 16 and greatest values
//! - `outside`: no input at all, a megabyte

pub mod balances;
pub mod books;
pub mod discards;
pub mod outside;
pub mod sheets;

use crate::comparison::Examiner;
use crate::Input;

/// A call and its number.
pub struct Edge {
    pub input: Input,
    pub number: u8,
}

/// A question for a greatest value, the number and the value.
pub struct Value {
    pub book: Vec<u8>,
    pub discard: u8,
    pub answer: (u8, u64),
}

impl Edge {
    pub fn new(way: &'static str, number: u8, bytes: Vec<u8>) -> Edge {
        let input = Input { way, bytes };
        Edge { input, number }
    }
}

/// All edges of judging.
pub fn calls() -> Vec<Edge> {
    let mut edges = books::edges();
    edges.extend(sheets::edges());
    edges.extend(balances::edges());
    edges.extend(outside::edges());
    edges
}

/// Puts all edges, each call through the program too, and holds the answers to what they must be.
pub fn put(examiner: &mut dyn Examiner) -> Result<(), String> {
    for (place, edge) in calls().iter().enumerate() {
        let number = examiner.call_and_print(&edge.input)?;
        expect(edge.input.way, place, &edge.number, &number)?;
    }
    put_values(examiner)
}

fn put_values(examiner: &mut dyn Examiner) -> Result<(), String> {
    for (place, value) in discards::values().iter().enumerate() {
        let answer = examiner.value("edge of 16", &value.book, value.discard)?;
        expect("edge of 16", place, &value.answer, &answer)?;
    }
    Ok(())
}

fn expect<T: PartialEq + std::fmt::Debug>(
    way: &str,
    place: usize,
    right: &T,
    given: &T,
) -> Result<(), String> {
    match given == right {
        true => Ok(()),
        false => Err(format!(
            "{way} (place {place}): {given:?}, where docs/FORMAT.md says {right:?}"
        )),
    }
}

/// An edge for each value of a field and its number.
pub fn each<T: Copy>(
    way: &'static str,
    values: &[(T, u8)],
    bytes: impl Fn(T) -> Vec<u8>,
) -> Vec<Edge> {
    let edge = |&(value, number): &(T, u8)| Edge::new(way, number, bytes(value));
    values.iter().map(edge).collect()
}

/// `bytes` with the bytes from place `at` on replaced.
pub fn with(bytes: &[u8], at: usize, new: &[u8]) -> Vec<u8> {
    let mut bytes = bytes.to_vec();
    bytes[at..at + new.len()].copy_from_slice(new);
    bytes
}
