//! Rounds of generated inputs: an example each, and what comes from it.

use crate::comparison::Examiner;
use crate::{book_inputs, fields, inputs, multipliers, raw, sheet_inputs, Example, Input};
use generate::full::{varied, Kind};
use generate::planted::challenged_book;
use generate::{write, Rng};

/// Puts the inputs from `rounds` examples. Most examples are small, and all that comes from them is
/// put; one in ten is of any size, with fewer inputs and one over a book filled up. With each goes an
/// example of six winners where one set of them is challenged, each set in its turn.
pub fn rounds(examiner: &mut dyn Examiner, rng: &mut Rng, rounds: usize) -> Result<(), String> {
    for round in 0..rounds {
        match round % 10 {
            9 => one_of_any_size(examiner, rng)?,
            _ => small(examiner, rng)?,
        }
        challenged(examiner, rng, round % 62 + 1)?;
    }
    Ok(())
}

fn small(examiner: &mut dyn Examiner, rng: &mut Rng) -> Result<(), String> {
    let example = Example::small(rng);
    examiner.share(&example);
    let inputs = inputs(rng, &example);
    put(examiner, rng, inputs, usize::MAX)?;
    discards(examiner, &example)
}

fn one_of_any_size(examiner: &mut dyn Examiner, rng: &mut Rng) -> Result<(), String> {
    let example = Example::any(rng);
    examiner.share(&example);
    let inputs = inputs(rng, &example);
    put(examiner, rng, inputs, 40)?;
    examiner.call(&fields::filled_up(&example))?;
    discards(examiner, &example)
}

fn challenged(examiner: &mut dyn Examiner, rng: &mut Rng, set: usize) -> Result<(), String> {
    let book = challenged_book(rng, set);
    let example = Example::of(rng, book);
    examiner.share(&example);
    let inputs = multipliers::about_sets(rng, &example);
    put(examiner, rng, inputs, usize::MAX)
}

/// A full book of this kind: all 64 values; the accepted call; calls that differ from it in the
/// sheet; and a few that differ in the book, for which the reference lists all combinations anew.
pub fn full_round(examiner: &mut dyn Examiner, rng: &mut Rng, kind: &Kind) -> Result<(), String> {
    let plain = kind.book(rng.bits() >> 1);
    let book = match rng.chance(30) {
        true => varied(rng, plain),
        false => plain,
    };
    let example = Example::of(rng, book);
    examiner.share(&example);
    discards(examiner, &example)?;
    let unchanged = Input {
        way: "full, unchanged",
        bytes: example.bytes(),
    };
    examiner.call_and_print(&unchanged)?;
    let in_sheet = sheet_inputs(rng, &example);
    put(examiner, rng, in_sheet, 150)?;
    let in_book = book_inputs(&example);
    put(examiner, rng, in_book, 2)?;
    let in_bytes = raw::changed(rng, &unchanged.bytes);
    put(examiner, rng, in_bytes, 6)
}

/// Puts the first of the calls and others at random, as many as `most` in all, and now and then
/// asks for a greatest value with any discard byte.
fn put(
    examiner: &mut dyn Examiner,
    rng: &mut Rng,
    mut inputs: Vec<Input>,
    most: usize,
) -> Result<(), String> {
    if inputs.len() > most {
        rng.shuffle(&mut inputs[1..]);
        inputs.truncate(most);
    }
    for input in &inputs {
        examiner.call(input)?;
        if rng.chance(2) {
            examiner.value("value of any bytes", &input.bytes, rng.bits() as u8)?;
        }
    }
    Ok(())
}

/// Every discard byte that is allowed, and those that name one client too many.
fn discards(examiner: &mut dyn Examiner, example: &Example) -> Result<(), String> {
    let book = write::book(&example.book);
    let n = example.book.status.len();
    let too_many = (n..8).map(|bit| 1 << bit);
    for discard in too_many.chain(0..1 << n) {
        examiner.value("discard byte", &book, discard)?;
    }
    Ok(())
}
