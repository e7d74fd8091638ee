//! A call as text: the lines that `assemble` reads, with the figures beside them as comments.

use crate::explain;
use crate::library::{self, Reply};
use crate::parts::{book_of, sheet_of, weights_of, BookPart};
use crate::show_book::{book_lines, surplus_lines};
use crate::show_sheet::{balance_lines, sheet_lines};
use crate::sums::Sums;
use reference::questions::question_1;

/// The text of a call, or of a book alone. Where question 1, 2 or 6 stops it, which and where, and what could be shown.
pub struct Shown {
    pub text: String,
    pub stopped: Option<String>,
}

pub fn show(input: &[u8]) -> Shown {
    let reply = library::ask(input);
    let Some(part) = book_of(input) else {
        let number = if question_1(input) { 2 } else { 1 };
        return stopped(opening(&reply), number, input);
    };
    let start = opening(&reply) + &book_lines(&part);
    let Some(sheet_part) = sheet_of(&part) else {
        return without_sheet(start + &surplus_lines(input, &part.book), input, &part);
    };
    let sheet = &sheet_part.sheet;
    let weights = weights_of(input, &part.book, sheet);
    let sums = weights.as_ref().map(|weights| Sums { sheet, weights });
    let text = start
        + &value_line(input, &part, sums.as_ref())
        + &sheet_lines(&part.book, sheet, sums.as_ref(), &reply)
        + &sums.map_or(String::new(), |sums| balance_lines(&sums));
    Shown {
        text,
        stopped: None,
    }
}

/// A book alone is shown whole; what follows it and is no sheet stops at question 6.
fn without_sheet(text: String, input: &[u8], part: &BookPart) -> Shown {
    if !part.rest.is_empty() {
        return stopped(text, 6, input);
    }
    Shown {
        text: text + "\n# A book alone: no sheet follows it, which question 6 asks for.\n",
        stopped: None,
    }
}

fn stopped(text: String, number: u32, input: &[u8]) -> Shown {
    let places = explain::places(number, input).into_iter();
    let places: Vec<String> = places.map(|place| place.words).collect();
    let stop = format!("question {number} stops it: {}", places.join("; "));
    Shown {
        text: format!("{text}\n# Nothing more can be shown, for {stop}\n"),
        stopped: Some(stop),
    }
}

fn opening(reply: &Reply) -> String {
    let answer = reply.list.replace('\n', "\n#     ");
    format!(
        "# The proved library's answer, which alone counts:\n#     {answer}\n\
         # All else after a # is for redoing the sum; '!' marks a figure that breaks its bound.\n\n"
    )
}

/// v, the library's, beside the value of the winners; or why there are no figures.
fn value_line(input: &[u8], part: &BookPart, sums: Option<&Sums>) -> String {
    let Some(v) = library::greatest(input) else {
        return "\n# The book is not sound, so there is no v, σ or balance.\n".to_string();
    };
    match sums {
        None => {
            format!("\n# v = {v}. The winners are no combination, so there is no σ or balance.\n")
        }
        Some(sums) => {
            let made = match sums.short_of_v(&part.book) {
                0 => format!("{v} too"),
                short => format!("{}, {short} less than v !", v - short),
            };
            format!("\n# 9: v = {v}; the winners' amounts add up to {made}\n")
        }
    }
}
