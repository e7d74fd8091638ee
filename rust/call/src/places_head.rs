//! Where a call fails questions 1, 2 and 6, which ask for versions, lengths and counts.

use crate::parts::BookPart;
use crate::place::Place;
use crate::range::{bytes, outside};
use reference::bytes::number;
use reference::sheet::sheet_length;

const VERSION: i128 = 1;
const LEAST_INPUT: usize = 3;
const LEAST_SHEET: usize = 20;

/// Question 1.
pub fn first_bytes(input: &[u8]) -> Vec<Place> {
    let mut places = Vec::new();
    if input.len() < LEAST_INPUT {
        let short = LEAST_INPUT - input.len();
        let words = format!(
            "byte {} is missing: there are {}, {short} too few",
            input.len(),
            bytes(input.len())
        );
        places.push(Place::at(input.len(), words).of("by", short));
    }
    let first = input.first().map(|&version| i128::from(version));
    places.extend(first.and_then(|version| wrong_version(0, "book", version)));
    places
}

fn wrong_version(byte: usize, of: &str, version: i128) -> Option<Place> {
    let outside = outside(version, VERSION, VERSION)?;
    let words = format!("byte {byte}, the {of}'s version, is {version} and must be 1");
    Some(Place::at(byte, words).beyond(&outside))
}

/// Question 2: the first that is wrong, for all that comes after it is read by it.
pub fn book_length(input: &[u8]) -> Vec<Place> {
    wrong_book(input).into_iter().collect()
}

fn wrong_book(input: &[u8]) -> Option<Place> {
    let length = usize::try_from(number(input, 1, 2)?).ok()?;
    let Some(book) = input.get(..length) else {
        let missing = length - input.len();
        let words = format!(
            "byte {} is missing: bytes 1 and 2 say that the book has {length} bytes, and {} of them are not there",
            input.len(),
            bytes(missing)
        );
        return Some(Place::at(input.len(), words).of("by", missing));
    };
    match counts(book) {
        Err(place) => Some(place),
        Ok((k, n, m)) => wrong_length(length, k, n, m),
    }
}

/// K, n and m of a book, or the first that is wrong.
fn counts(book: &[u8]) -> Result<(usize, usize, usize), Place> {
    let k = count(book, 3, "K", 1, 4)?;
    let n = count(book, 4 + 3 * k, "n", 1, 6)?;
    let m = count(book, 5 + 3 * k + n, "m", 0, 48)?;
    Ok((k, n, m))
}

fn count(book: &[u8], at: usize, name: &str, least: i128, most: i128) -> Result<usize, Place> {
    let Some(&count) = book.get(at) else {
        let length = book.len();
        let words =
            format!("byte {at}, {name}, is outside the book, whose {length} bytes end before it");
        return Err(Place::at(at, words));
    };
    match outside(count.into(), least, most) {
        Some(by) => Err(Place::at(at, format!("byte {at}, {name}, is {by}")).beyond(&by)),
        None => Ok(usize::from(count)),
    }
}

fn wrong_length(length: usize, k: usize, n: usize, m: usize) -> Option<Place> {
    let formula = (6 + 3 * k + n + m * (k + 5)) as i128;
    let by = outside(length as i128, formula, formula)?;
    let words =
        format!("byte 1, the length of the book, is {by}, its length with K {k}, n {n} and m {m}");
    Some(Place::at(1, words).beyond(&by))
}

/// Question 6: the first that is wrong.
pub fn sheet_length_places(part: &BookPart) -> Vec<Place> {
    wrong_sheet(part).into_iter().collect()
}

fn wrong_sheet(part: &BookPart) -> Option<Place> {
    let (rest, start) = (part.rest, part.book.length());
    let &[version, high, low, w, ..] = rest else {
        let end = start + rest.len();
        let there = bytes(rest.len());
        let words =
            format!("byte {end} is missing: {there} follow the book, and a sheet has 20 or more");
        return Some(Place::at(end, words).of("by", LEAST_SHEET - rest.len()));
    };
    let version = wrong_version(start, "sheet", version.into());
    version
        .or_else(|| wrong_winners(part, start + 3, w.into()))
        .or_else(|| {
            let length = usize::from(high) * 256 + usize::from(low);
            wrong_extent(rest.len(), start, length, w.into())
        })
}

fn wrong_winners(part: &BookPart, byte: usize, w: i128) -> Option<Place> {
    let by = outside(w, 0, part.book.status.len() as i128)?;
    let words = format!("byte {byte}, w, is {by}, the number of clients");
    Some(Place::at(byte, words).beyond(&by))
}

/// The sheet's length against its w, and then against what is there.
fn wrong_extent(there: usize, start: usize, length: usize, w: usize) -> Option<Place> {
    let formula = sheet_length(w) as i128;
    if let Some(by) = outside(length as i128, formula, formula) {
        let byte = start + 1;
        let words = format!("byte {byte}, the length of the sheet, is {by}, its length with w {w}");
        return Some(Place::at(byte, words).beyond(&by));
    }
    if there < length {
        let missing = length - there;
        let words = format!(
            "byte {} is missing: the sheet is {} too short",
            start + there,
            bytes(missing)
        );
        return Some(Place::at(start + there, words).of("by", missing));
    }
    let (end, more) = (start + length, there - length);
    let words = format!(
        "byte {end} is past the end of the sheet: {} too many",
        bytes(more)
    );
    (more > 0).then(|| Place::at(end, words).of("by", more))
}
