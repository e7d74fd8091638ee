//! Inputs near every edge, to put to two implementations and compare their answers.
//!
//! An example is a sound book with a sheet that is accepted. From it come many inputs that differ
//! a little:
//!
//! - `fields`: each field moved by one, and set to each end of its range and one past it
//! - `multipliers`: multipliers of one set or one winner changed, and changes that keep some
//!   balances and break others
//! - `winners`: winners reordered, repeated, left out, added and exchanged
//! - `raw`: bytes flipped, cut, doubled, random or none
//! - `rounds`: rounds of generated inputs, over small books and over full ones
//!
//! Beside them stand fixed inputs with their answers:
//!
//! - `edges`: every edge that docs/FORMAT.md names
//! - `calls`: the worked calls
//!
//! And to put them:
//!
//! - `comparison`: one input put to the reference and to another implementation
//! - `memory`: greatest values kept from one input to the next
//! - `tally`, `shapes`: how often each number was reached, and by which way of changing; what the
//!   accepted calls were like

#![forbid(unsafe_code)]

pub mod calls;
pub mod comparison;
pub mod edges;
pub mod fields;
pub mod memory;
pub mod multipliers;
pub mod raw;
pub mod rounds;
pub mod shapes;
pub mod tally;
pub mod winners;

use generate::{acceptable_sheet, dressed, random_book, small_book, weighed, write, Rng};
use reference::combinations::Values;
use reference::{Book, Sheet, Weights};
use std::rc::Rc;

pub use comparison::{Certifier, Comparison, Examiner, Printer};
pub use memory::Memory;
pub use tally::{Counts, Tally};

/// A sound book and a sheet that is accepted over it.
#[derive(Clone, Debug)]
pub struct Example {
    pub book: Book,
    pub values: Rc<Values>,
    pub weights: Weights,
    pub sheet: Sheet,
}

/// Bytes to be judged, and how they were made.
#[derive(Clone, Debug)]
pub struct Input {
    pub way: &'static str,
    pub bytes: Vec<u8>,
}

impl Example {
    pub fn of(rng: &mut Rng, book: Book) -> Example {
        let (values, winning) = weighed(&book);
        let winners = rng.pick(&winning);
        let weights = Weights::from_values(&book, &values, winners);
        let sheet = acceptable_sheet(rng, &weights, winners);
        let sheet = match rng.chance(50) {
            true => dressed(rng, &weights, &sheet),
            false => sheet,
        };
        Example {
            book,
            values: Rc::new(values),
            weights,
            sheet,
        }
    }

    /// An example whose book is quick to judge.
    pub fn small(rng: &mut Rng) -> Example {
        let book = small_book(rng);
        Example::of(rng, book)
    }

    /// An example with any book, up to full ones.
    pub fn any(rng: &mut Rng) -> Example {
        let book = random_book(rng);
        Example::of(rng, book)
    }

    pub fn bytes(&self) -> Vec<u8> {
        write::input(&self.book, &self.sheet)
    }

    /// As many inputs at random out of all that come from the example, which is the first of them.
    pub fn some_inputs(&self, rng: &mut Rng, count: usize) -> Vec<Input> {
        let mut all = inputs(rng, self);
        rng.shuffle(&mut all[1..]);
        all.truncate(count);
        all
    }
}

/// Inputs that differ from an example, gathered one change at a time.
pub struct Changes<'a> {
    pub example: &'a Example,
    pub inputs: Vec<Input>,
}

impl<'a> Changes<'a> {
    pub fn of(example: &'a Example) -> Changes<'a> {
        Changes {
            example,
            inputs: Vec::new(),
        }
    }

    /// The example with its book changed.
    pub fn book(&mut self, way: &'static str, change: impl Fn(&mut Book)) {
        let mut book = self.example.book.clone();
        change(&mut book);
        let bytes = write::input(&book, &self.example.sheet);
        self.inputs.push(Input { way, bytes });
    }

    /// The example with one field of its book set to each of these values.
    pub fn books(&mut self, way: &'static str, values: Vec<i128>, set: impl Fn(&mut Book, i128)) {
        for value in values {
            self.book(way, |book| set(book, value));
        }
    }

    /// The example with one field of its sheet set to each of these values.
    pub fn sheets(&mut self, way: &'static str, values: Vec<i128>, set: impl Fn(&mut Sheet, i128)) {
        for value in values {
            self.sheet(way, |sheet| set(sheet, value));
        }
    }

    /// The example with its sheet changed.
    pub fn sheet(&mut self, way: &'static str, change: impl Fn(&mut Sheet)) {
        let mut sheet = self.example.sheet.clone();
        change(&mut sheet);
        let bytes = write::input(&self.example.book, &sheet);
        self.inputs.push(Input { way, bytes });
    }
}

/// The example itself and all inputs that come from it, some thousands for a large one.
pub fn inputs(rng: &mut Rng, example: &Example) -> Vec<Input> {
    let unchanged = Input {
        way: "unchanged",
        bytes: example.bytes(),
    };
    let mut inputs = vec![unchanged];
    inputs.extend(book_inputs(example));
    inputs.extend(sheet_inputs(rng, example));
    inputs.extend(raw::changed(rng, &example.bytes()));
    inputs
}

/// Those that differ in the book.
pub fn book_inputs(example: &Example) -> Vec<Input> {
    fields::of_book(example)
}

/// Those that differ in the sheet alone.
pub fn sheet_inputs(rng: &mut Rng, example: &Example) -> Vec<Input> {
    let mut inputs = fields::of_sheet(example);
    inputs.extend(multipliers::changed(rng, example));
    inputs.extend(winners::changed(rng, example));
    inputs
}
