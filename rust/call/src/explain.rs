//! In words, which question a refused call fails and where. The library's answer leads: its number
//! picks the question whose places are looked for, and the second implementation's is set beside it.

use crate::asked::question;
use crate::library::{self, Reply};
use crate::parts::{book_of, sheet_of, weights_of};
use crate::place::Place;
use crate::sums::Sums;
use crate::{places_balance, places_book, places_head, places_sheet};
use reference::{Book, Sheet};

/// What is said of a call, and whether the library has accepted it.
pub struct Explained {
    pub text: String,
    pub accepted: bool,
}

pub fn explain(input: &[u8]) -> Explained {
    let reply = library::ask(input);
    let second = reference::price_list(input);
    explain_reply(input, &reply, second.trim_end())
}

/// The same, given the library's answer and the second implementation's.
pub fn explain_reply(input: &[u8], reply: &Reply, second: &str) -> Explained {
    let accepted = reply.number == 0;
    let answer = reply.list.replace('\n', "\n    ");
    let mut text = format!("The proved library's answer, which alone counts:\n    {answer}\n");
    if reply.list != second {
        text += &difference(second);
    }
    text += &match accepted {
        true => prices(input, reply),
        false => refusal(input, reply.number),
    };
    Explained { text, accepted }
}

fn difference(second: &str) -> String {
    format!(
        "ATTENTION: the second implementation differs. It answers\n    {}\nThe library's answer stands. \
         One of the two is wrong: keep this call and report it.\n",
        second.replace('\n', "\n    ")
    )
}

fn refusal(input: &[u8], number: u32) -> String {
    let asked = question(number).unwrap_or("");
    let found = places(number, input);
    let found: Vec<String> = match found.is_empty() {
        true => {
            vec!["the second implementation finds nothing wrong with this question".to_string()]
        }
        false => found.into_iter().map(|place| place.words).collect(),
    };
    format!(
        "Question {number}: {asked}\nNo:\n    {}\nThe words are worked out beside the library, to help a reader; they decide nothing.\n",
        found.join("\n").replace('\n', "\n    ")
    )
}

/// Where a call fails a question, and by how much. Empty where no place is found.
pub fn places(number: u32, input: &[u8]) -> Vec<Place> {
    match number {
        1 => places_head::first_bytes(input),
        2 => places_head::book_length(input),
        _ => after_head(number, input).unwrap_or_default(),
    }
}

/// Where it fails a question after 2, if there is what the question asks about.
fn after_head(number: u32, input: &[u8]) -> Option<Vec<Place>> {
    let part = book_of(input)?;
    let places = match number {
        3 => places_book::ranges(&part),
        4 => places_book::bids(&part),
        5 => places_book::reserves(&part),
        6 => places_head::sheet_length_places(&part),
        7 => places_sheet::ranges(&sheet_of(&part)?),
        8 => places_sheet::winners(&part.book, &sheet_of(&part)?),
        _ => weighed(number, input, &part.book, &sheet_of(&part)?.sheet)?,
    };
    Some(places)
}

fn weighed(number: u32, input: &[u8], book: &Book, sheet: &Sheet) -> Option<Vec<Place>> {
    let weights = weights_of(input, book, sheet)?;
    let sums = Sums {
        sheet,
        weights: &weights,
    };
    let about = places_balance::About { book, sums: &sums };
    Some(match number {
        9 => about.value(),
        10 => about.reserves(),
        11 => about.sets(),
        12 => about.covers(),
        13 => about.totals(),
        14 => about.distances(),
        15 => about.pairs(),
        _ => Vec::new(),
    })
}

/// Each price of an accepted call: the library's numerators, over its q.
fn prices(input: &[u8], reply: &Reply) -> String {
    let Some(part) = book_of(input) else {
        return String::new();
    };
    let Some(sheet) = sheet_of(&part) else {
        return String::new();
    };
    let winners = sheet.sheet.winners.iter().zip(reply.prices);
    let mut text = format!(
        "Accepted: all fifteen questions are answered yes. Prices are over {}.\n",
        reply.q
    );
    for (winner, price) in winners {
        let Some(bid) = part.book.bid(winner.bid) else {
            continue;
        };
        text += &format!(
            "    client {} pays {} for bid {}, which offered {}\n",
            bid.client,
            credits(price, reply.q),
            winner.bid,
            bid.amount
        );
    }
    text
}

/// A price in credits, exactly.
fn credits(price: u64, q: u32) -> String {
    let q = u64::from(q.max(1));
    match (price / q, price % q) {
        (whole, 0) => format!("{whole} credits"),
        (whole, rest) => format!("{price}/{q} credits (that is {whole} and {rest}/{q})"),
    }
}
