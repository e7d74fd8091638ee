//! A call as one JSON object, for programs. docs/CALLS.md has its fields.

use crate::asked::question;
use crate::explain::places;
use crate::json::Json;
use crate::library::{self, Reply};
use crate::parts::{book_of, sheet_of, weights_of, BookPart};
use crate::place::Place;
use crate::report_sheet::{sets, sheet_head, total, value, winners};
use crate::sums::Sums;
use reference::{Bid, Book};

/// The form's own version. A field that is added leaves it; one that changes its meaning raises it.
const FORM: usize = 1;

pub fn report(input: &[u8]) -> Json {
    let reply = library::ask(input);
    let second = reference::price_list(input);
    let mut fields = answer(&reply, second.trim_end());
    fields.push(("refusal", refusal(input, reply.number)));
    fields.extend(figures(input, &reply));
    Json::Object(fields)
}

/// The library's answer, and whether the second implementation has the same.
fn answer(reply: &Reply, second: &str) -> Vec<(&'static str, Json)> {
    let answer = if reply.number == 0 {
        "accepted"
    } else {
        "refused"
    };
    let prices = reply.prices.iter().take(reply.w as usize);
    vec![
        ("form", FORM.into()),
        ("answer", answer.into()),
        ("number", i128::from(reply.number).into()),
        ("w", i128::from(reply.w).into()),
        ("q", i128::from(reply.q).into()),
        (
            "prices",
            prices
                .map(|&price| i128::from(price))
                .collect::<Vec<_>>()
                .into(),
        ),
        ("lines", reply.list.lines().collect::<Vec<_>>().into()),
        ("agreed", (reply.list == second).into()),
    ]
}

fn refusal(input: &[u8], number: u32) -> Json {
    let Some(asked) = question(number) else {
        return Json::Null;
    };
    let places: Vec<Json> = places(number, input).iter().map(place).collect();
    Json::Object(vec![("question", asked.into()), ("places", places.into())])
}

/// The names of a place's numbers, in the order in which they are written.
pub const NAMES: [&str; 12] = [
    "byte", "kind", "client", "bid", "winner", "set", "is", "left", "right", "least", "most", "by",
];

fn place(place: &Place) -> Json {
    let figure = |name: &'static str| {
        let mut facts = place.facts.iter();
        let &(_, figure) = facts.find(|(known, _)| *known == name)?;
        Some((name, figure.into()))
    };
    let facts = NAMES.iter().filter_map(|&name| figure(name));
    let words = place.words.trim().into();
    Json::Object(facts.chain([("words", words)]).collect())
}

/// All that is worked out of the input, with null for what there is not.
fn figures(input: &[u8], reply: &Reply) -> Vec<(&'static str, Json)> {
    let part = book_of(input);
    let sheet_part = part.as_ref().and_then(sheet_of);
    let sheet = sheet_part.as_ref().map(|part| &part.sheet);
    let both = part.as_ref().map(|part| &part.book).zip(sheet);
    let weights = both.and_then(|(book, sheet)| weights_of(input, book, sheet));
    let sums = sheet.zip(weights.as_ref());
    let sums = sums.map(|(sheet, weights)| Sums { sheet, weights });
    let sums = sums.as_ref();
    let surpluses = part
        .as_ref()
        .and_then(|part| library::surpluses(input, &part.book));
    vec![
        ("v", library::greatest(input).into()),
        (
            "sigma_of_clients",
            surpluses.map(|table| table.sigma).into(),
        ),
        ("book", part.as_ref().map(book).into()),
        ("sheet", sheet.map(sheet_head).into()),
        (
            "winners",
            both.map(|(book, sheet)| winners(book, sheet, sums, reply))
                .into(),
        ),
        ("sets", sheet.map(|sheet| sets(sheet, sums)).into()),
        (
            "value_9",
            sums.zip(part.as_ref())
                .map(|(sums, part)| value(sums, &part.book))
                .into(),
        ),
        ("total_13", sums.map(total).into()),
    ]
}

fn book(part: &BookPart) -> Json {
    let book = &part.book;
    let kinds = book.supply.iter().zip(&book.reserve);
    let kinds = kinds.map(|(&supply, &reserve)| {
        Json::Object(vec![("supply", supply.into()), ("reserve", reserve.into())])
    });
    let bids = book.bids.iter().map(|bid| bid_object(book, bid));
    Json::Object(vec![
        ("kinds", Json::List(kinds.collect())),
        ("statuses", book.status.clone().into()),
        ("bids", Json::List(bids.collect())),
    ])
}

fn bid_object(book: &Book, bid: &Bid) -> Json {
    let reserves = book.reserves(bid);
    Json::Object(vec![
        ("client", bid.client.into()),
        ("hours", bid.hours.clone().into()),
        ("amount", bid.amount.into()),
        ("reserves", reserves.into()),
        ("rho", (bid.amount - reserves).into()),
    ])
}
