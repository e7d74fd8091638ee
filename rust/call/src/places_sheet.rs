//! Where a call fails questions 7 and 8, which ask about the fields and the winners of the sheet.

use crate::parts::SheetPart;
use crate::place::Place;
use crate::range::outside;
use reference::Book;

const SMALL: i128 = 10_000;
const NUMERATOR: i128 = 10_000_000_000;
const LARGE: i128 = 1_000_000_000_000;

/// Question 7.
pub fn ranges(part: &SheetPart) -> Vec<Place> {
    let (sheet, at) = (&part.sheet, &part.at);
    let mut places = vec![
        field(at.q(), "q".to_string(), sheet.q, 1, SMALL),
        field(at.s(), "s".to_string(), sheet.s, 1, SMALL),
    ];
    places.extend((0..sheet.w()).flat_map(|j| winner_fields(part, j)));
    places.push(field(at.g(), "G".to_string(), sheet.g, -LARGE, LARGE));
    places.extend(sheet.set_numbers().flat_map(|set| set_fields(part, set)));
    places.into_iter().flatten().collect()
}

fn field(byte: usize, name: String, value: i128, least: i128, most: i128) -> Option<Place> {
    let by = outside(value, least, most)?;
    Some(Place::at(byte, format!("byte {byte}, {name}, is {by}")).beyond(&by))
}

fn winner_fields(part: &SheetPart, j: usize) -> [Option<Place>; 4] {
    let (winner, at) = (&part.sheet.winners[j], &part.at);
    let of = |name: &str| format!("{name} of winner {j}");
    let places = [
        field(at.x(j), of("X"), winner.x, 0, NUMERATOR),
        field(at.z(j), of("Z"), winner.z, 0, SMALL),
        field(at.r(j), of("R"), winner.r, 0, LARGE),
        field(at.t(j), of("T"), winner.t, 0, LARGE),
    ];
    places.map(|place| place.map(|place| place.of("winner", j)))
}

fn set_fields(part: &SheetPart, set: usize) -> [Option<Place>; 2] {
    let (of, at) = (&part.sheet.sets[set], &part.at);
    let places = [
        field(at.y(set), format!("Y of set {set}"), of.y, 0, SMALL),
        field(at.u(set), format!("U of set {set}"), of.u, 0, LARGE),
    ];
    places.map(|place| place.map(|place| place.of("set", set)))
}

/// Question 8: winner by winner, then kind by kind.
pub fn winners(book: &Book, part: &SheetPart) -> Vec<Place> {
    let of_winners = (0..part.sheet.w()).filter_map(|j| winner_place(book, part, j));
    let of_kinds = (0..book.supply.len()).filter_map(|kind| overdrawn(book, part, kind));
    of_winners.chain(of_kinds).collect()
}

fn winner_place(book: &Book, part: &SheetPart, j: usize) -> Option<Place> {
    let number = part.sheet.winners[j].bid;
    let byte = part.at.bid(j);
    let place = |what: String| {
        let words = format!("byte {byte}, the bid number of winner {j}, is {what}");
        Place::at(byte, words).of("winner", j).of("bid", number)
    };
    let Some(bid) = book.bid(number) else {
        let m = book.bids.len();
        let by = outside(number as i128, 1, m as i128)?;
        return Some(place(format!("{by}; the bids are 1 to {m}")).beyond(&by));
    };
    let client = bid.client;
    if !book.is_standing(client) {
        let what = format!("{number}, a bid of client {client}, which is withdrawn");
        return Some(place(what).of("client", client));
    }
    let before = part.sheet.winners[..j].last()?;
    let earlier = book.bid(before.bid)?.client;
    let what =
        format!("{number}, a bid of client {client}, where a client above {earlier} must come");
    (client <= earlier).then(|| place(what).of("client", client))
}

fn overdrawn(book: &Book, part: &SheetPart, kind: usize) -> Option<Place> {
    let bids = part
        .sheet
        .winners
        .iter()
        .filter_map(|winner| book.bid(winner.bid));
    let hours: i128 = bids.map(|bid| bid.hours[kind]).sum();
    let by = outside(hours, 0, book.supply[kind])?;
    let words = format!(
        "the winners from byte {} on take {hours} hours of kind {}, {} more than its supply of {}",
        part.at.bid(0),
        kind + 1,
        by.by(),
        book.supply[kind]
    );
    Some(
        Place::at(part.at.bid(0), words)
            .of("kind", kind + 1)
            .beyond(&by),
    )
}
