//! Which set a set line names.

use crate::line::Line;
use crate::number::{number, BYTE};
use crate::sums::members;
use crate::words::{Fault, Found, Word};

/// The set that a line names, by its number, by its winners or by both.
pub fn set_named(line: &Line, w: usize) -> Found<usize> {
    let by_winners = match line.values("winners") {
        Some((name, values)) => Some(set_of(name, values, w)?),
        None => None,
    };
    let Some(word) = line.own_number()? else {
        return by_winners.ok_or_else(|| names_none(line));
    };
    let last = (1_usize << w) - 1;
    let set = number("set", word, 0, i128::MAX).map_err(|fault| vec![fault])?;
    match usize::try_from(set) {
        Ok(set) if (1..=last).contains(&set) => agreed(word, set, by_winners, w),
        _ => Err(vec![word.fault(format!(
            "there is no set {}; with {w} winners their numbers end at {last}",
            word.quoted()
        ))]),
    }
}

fn names_none(line: &Line) -> Vec<Fault> {
    let said = "the set line names no set: its number or 'winners' is missing";
    match line.has_stranger() {
        true => Vec::new(),
        false => vec![line.keyword.fault(said)],
    }
}

/// A set's number, where the winners named beside it are its own.
fn agreed(word: &Word, set: usize, by_winners: Option<usize>, w: usize) -> Found<usize> {
    match by_winners.filter(|&other| other != set) {
        None => Ok(set),
        Some(_) => Err(vec![word.fault(format!(
            "set {set} has the winners {}, and not those named here",
            members(set, w)
        ))]),
    }
}

/// The set of these winners.
fn set_of(name: &Word, values: &[Word], w: usize) -> Found<usize> {
    let mut set = 0;
    let mut faults = Vec::new();
    for word in values {
        match winner_bit(word, w, set) {
            Ok(bit) => set |= bit,
            Err(fault) => faults.push(fault),
        }
    }
    match (faults.is_empty(), set) {
        (false, _) => Err(faults),
        (true, 0) => Err(vec![name.fault("no winner stands after 'winners'")]),
        (true, _) => Ok(set),
    }
}

/// The bit of a winner that is there, and not in the set so far.
fn winner_bit(word: &Word, w: usize, set: usize) -> Result<usize, Fault> {
    let winner = number("winners", word, 0, BYTE)?;
    if winner >= w as i128 {
        return Err(word.fault(format!(
            "there is no winner {winner}; they are numbered from 0, and there are {w}"
        )));
    }
    match set >> winner & 1 {
        1 => Err(word.fault(format!("winner {winner} stands twice"))),
        _ => Ok(1 << winner),
    }
}
