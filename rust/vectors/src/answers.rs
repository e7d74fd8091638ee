//! What must be printed for a line: the numbers of each operation's answer, by the reference.

use crate::held::{Held, NOTHING};
use reference::answer::{answer as answer_of, balanced, outcome, proper_sheet, sound_book};
use reference::bytes::number;
use reference::combinations::{value, Values};
use reference::questions::{question_16, question_6, question_8};
use reference::{Answer, Book, Outcome, Sheet, Weights, Winner};

/// The byte at a place; past the end 0.
fn byte(bytes: &[u8], at: usize) -> u8 {
    bytes.get(at).copied().unwrap_or(0)
}

/// The number in so many bytes at a place; bytes past the end are 0.
fn field(bytes: &[u8], at: usize, width: usize) -> u64 {
    (at..at + width).fold(0, |sum, place| sum * 256 + u64::from(byte(bytes, place)))
}

fn after(bytes: &[u8], n: usize) -> &[u8] {
    bytes.get(n..).unwrap_or(&[])
}

/// Number, length and book of what is read.
fn reading(bytes: &[u8]) -> (u8, usize, Held) {
    match sound_book(bytes) {
        Ok(book) => (0, book.length(), Held::of(&book)),
        Err(number) => (number, 0, NOTHING),
    }
}

/// The book that a line over a value gives, its changes made, and what follows the book's bytes.
fn changed(bytes: &[u8]) -> (Held, &[u8]) {
    let count = usize::from(byte(bytes, 0));
    let own = after(bytes, 1 + 6 * count);
    let (_, length, mut held) = reading(own);
    for at in (0..count).map(|i| 1 + 6 * i) {
        held.change(byte(bytes, at), usize::from(byte(bytes, at + 1)), field(bytes, at + 2, 4) as u32);
    }
    (held, after(own, length))
}

fn numbers<T: Copy + Into<u64>>(some: &[T]) -> Vec<u64> {
    some.iter().map(|&number| number.into()).collect()
}

/// Numbers with zeros after them.
fn filled(some: impl IntoIterator<Item = i128>, long: usize) -> Vec<u64> {
    let mut all: Vec<u64> = some.into_iter().map(|number| number as u64).collect();
    all.resize(long, 0);
    all
}

fn read_answer(bytes: &[u8]) -> Vec<u64> {
    let (number, length, held) = reading(bytes);
    let mut all = vec![u64::from(number), length as u64, u64::from(held.k)];
    all.extend(numbers(&held.supply));
    all.extend(numbers(&held.reserve));
    all.push(held.n.into());
    all.extend(numbers(&held.caps));
    all.push(held.m.into());
    for i in 0..48 {
        let mut bid = vec![u64::from(held.client[i])];
        bid.extend(numbers(&held.hours[4 * i..4 * i + 4]));
        bid.push(held.amount[i].into());
        if bid.iter().any(|&number| number != 0) {
            all.push(i as u64);
            all.extend(bid);
        }
    }
    all
}

fn worth(book: Result<Book, u8>, discard: u8) -> Vec<u64> {
    let asked = book.and_then(|book| if question_16(&book, discard) { Ok(book) } else { Err(16) });
    match asked {
        Ok(book) => vec![0, Values::of(&book).greatest_without(usize::from(discard)) as u64],
        Err(number) => vec![number.into(), 0],
    }
}

/// The greatest value, and σ by set number of a list of clients.
fn surpluses(book: &Book, clients: &[u8]) -> (i128, Vec<i128>) {
    let values = Values::of(book);
    let v = values.greatest_without(0);
    let picked = |set: usize| (0..clients.len()).filter(|j| set >> j & 1 == 1).map(|j| 1 << (clients[j] - 1)).sum();
    (v, (0..1 << clients.len()).map(|set| v - values.greatest_without(picked(set))).collect())
}

fn table(book: Result<Book, u8>, clients: &[u8], count: usize) -> Vec<u64> {
    let rising = |book: &Book| {
        let listed = clients.get(..count)?;
        let rises = listed.windows(2).all(|pair| pair[0] < pair[1]);
        let named = listed.iter().all(|&client| (1..=book.status.len()).contains(&usize::from(client)));
        (rises && named).then_some(listed)
    };
    let found = book.and_then(|book| Ok(surpluses(&book, rising(&book).ok_or(16)?)));
    match found {
        Ok((v, sigma)) => [vec![0, v as u64], filled(sigma, 64)].concat(),
        Err(number) => filled([i128::from(number)], 66),
    }
}

/// σ of all sets of all clients.
fn whole_table(bytes: &[u8]) -> Vec<u64> {
    let book = sound_book(bytes);
    let clients = book.as_ref().map_or(0, |book| book.status.len());
    table(book, &[1, 2, 3, 4, 5, 6], clients)
}

/// A sheet with nothing but winners.
fn sheet_of(bids: &[u8]) -> Sheet {
    let winners = bids.iter().map(|&bid| Winner { bid: bid.into(), ..Winner::default() }).collect();
    Sheet { q: 1, s: 1, winners, g: 0, sets: Vec::new() }
}

/// v, and the winners' clients and σ, where their value is v.
fn weighed(book: &Book, bids: Option<&[u8]>) -> Result<Vec<u64>, u8> {
    let sheet = bids.map(sheet_of).filter(|sheet| question_8(book, sheet)).ok_or(8)?;
    let clients: Vec<u8> = sheet.bids().iter().map(|&bid| book.bids[bid - 1].client as u8).collect();
    let (v, sigma) = surpluses(book, &clients);
    if value(book, &sheet.bids()) != v {
        return Err(9);
    }
    let clients = clients.iter().map(|&client| client.into());
    Ok([vec![0, v as u64], filled(clients, 6), filled(sigma, 64)].concat())
}

fn judged(outcome: &Outcome) -> Vec<u64> {
    let Answer { number, w, q, prices } = answer_of(outcome);
    [vec![number.into(), w.into(), q.into()], prices.to_vec()].concat()
}

fn judged_over(book: Result<Book, u8>, part: &[u8]) -> Outcome {
    let book = book?;
    let sheet = proper_sheet(&book, part)?;
    balanced(&book, &sheet, &Weights::of(&book, &sheet.bids()))?;
    Ok((book, sheet))
}

fn sheet_answer(part: &[u8], n: usize) -> Vec<u64> {
    let w = byte(part, 3);
    let read = if w <= 6 && question_6(part, n) { Sheet::read(part) } else { None };
    let Some(sheet) = read else {
        return filled([6], 163);
    };
    let of_winners = |get: fn(&Winner) -> i128| filled(sheet.winners.iter().map(get), 6);
    let g = number(&(sheet.g as i64).to_be_bytes(), 0, 8).unwrap_or(0);
    [
        vec![0],
        of_winners(|winner| winner.bid as i128),
        vec![w.into(), sheet.q as u64, sheet.s as u64, g as u64],
        of_winners(|winner| winner.x),
        of_winners(|winner| winner.z),
        of_winners(|winner| winner.r),
        of_winners(|winner| winner.t),
        filled(sheet.sets.iter().map(|set| set.y), 64),
        filled(sheet.sets.iter().map(|set| set.u), 64),
    ]
    .concat()
}

fn bids_answer(part: &[u8]) -> Vec<u64> {
    let w = usize::from(byte(part, 3)).min(6);
    filled((0..w).map(|j| byte(part, 4 + j).into()), 6)
}

/// What a book has under a number, of a bid or of a client.
fn by_number(letter: char, book: &Book, number: usize) -> Vec<u64> {
    let bid = book.bid(number);
    match letter {
        'c' => vec![bid.map_or(0, |bid| bid.client as u64)],
        'a' => vec![bid.map_or(0, |bid| bid.amount as u64)],
        'r' => vec![bid.map_or(0, |bid| book.reserves(bid) as u64)],
        'l' => ['c', 'a', 'r'].into_iter().flat_map(|letter| by_number(letter, book, number)).collect(),
        'h' => filled(bid.map_or(Vec::new(), |bid| bid.hours.clone()), 4),
        _ => vec![book.is_standing(number).into()],
    }
}

/// The numbers of the answer to a letter and its bytes.
pub fn answer(letter: char, bytes: &[u8]) -> Vec<u64> {
    let first = byte(bytes, 0);
    let rest = after(bytes, 1);
    let seven = filled(bytes.iter().take(7).map(|&byte| byte.into()), 7);
    let six: Vec<u8> = seven[1..].iter().map(|&byte| byte as u8).collect();
    let count = usize::from(first);
    match letter {
        'b' => vec![field(rest, count, 1)],
        'w' => vec![field(rest, count, 2)],
        'd' => vec![field(rest, count, 4)],
        'q' => vec![field(rest, count, 8)],
        'R' => read_answer(bytes),
        'G' => worth(sound_book(rest), first),
        'D' => (0..=255).flat_map(|discard| worth(sound_book(bytes), discard)).collect(),
        'T' => whole_table(bytes),
        'J' => judged(&outcome(bytes, Values::of)),
        'F' => sheet_answer(rest, count),
        'f' => bids_answer(bytes),
        'S' => vec![changed(bytes).0.sound().err().unwrap_or(0).into()],
        's' => filled(changed(bytes).0.meaning().supply, 4),
        'c' | 'a' | 'r' | 'l' | 'h' | 't' => by_number(letter, &changed(rest).0.meaning(), count),
        'g' => worth(changed(rest).0.sound(), first),
        'u' => table(changed(after(bytes, 7)).0.sound(), &six, count),
        'W' => {
            let weighed = changed(after(bytes, 7)).0.sound().and_then(|book| weighed(&book, six.get(..count)));
            weighed.unwrap_or_else(|number| filled([number.into()], 72))
        }
        'O' => {
            let (held, part) = changed(bytes);
            judged(&judged_over(held.sound(), part))
        }
        _ => unreachable!("no letter of an operation: {letter}"),
    }
}
