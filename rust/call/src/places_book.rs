//! Where a call fails questions 3 to 5, which ask about the fields of the book.

use crate::parts::BookPart;
use crate::place::Place;
use crate::range::outside;

const MOST_SUPPLY: i128 = 200;
const MOST_RESERVE: i128 = 10_000;
const WITHDRAWN: i128 = 1;
const MOST_AMOUNT: i128 = 1_000_000;
const MOST_BIDS: usize = 8;

/// Question 3.
pub fn ranges(part: &BookPart) -> Vec<Place> {
    let (book, at) = (&part.book, &part.at);
    let kinds = 0..book.supply.len();
    let supplies = kinds.clone().filter_map(|k| {
        let (name, value) = (format!("the supply of kind {}", k + 1), book.supply[k]);
        Some(field(at.supply(k), &name, value, MOST_SUPPLY)?.of("kind", k + 1))
    });
    let reserves = kinds.filter_map(|k| {
        let (name, value) = (format!("the reserve of kind {}", k + 1), book.reserve[k]);
        Some(field(at.reserve(k), &name, value, MOST_RESERVE)?.of("kind", k + 1))
    });
    let statuses = (0..book.status.len()).filter_map(|c| {
        let (name, value) = (format!("the status of client {}", c + 1), book.status[c]);
        Some(field(at.status(c), &name, value, WITHDRAWN)?.of("client", c + 1))
    });
    supplies.chain(reserves).chain(statuses).collect()
}

/// A field of the book that is not from 0 to its most.
fn field(byte: usize, name: &str, value: i128, most: i128) -> Option<Place> {
    let by = outside(value, 0, most)?;
    Some(Place::at(byte, format!("byte {byte}, {name}, is {by}")).beyond(&by))
}

/// Question 4: bids first, then clients with too many.
pub fn bids(part: &BookPart) -> Vec<Place> {
    let n = part.book.status.len();
    let of_bids = (0..part.book.bids.len()).flat_map(|bid| bid_places(part, bid));
    let of_clients = (1..=n).filter_map(|client| too_many(part, client));
    of_bids.chain(of_clients).collect()
}

fn bid_places(part: &BookPart, place: usize) -> Vec<Place> {
    let bid = &part.book.bids[place];
    let number = place + 1;
    let n = part.book.status.len() as i128;
    let of_client = outside(bid.client as i128, 1, n).map(|by| {
        let byte = part.at.bid(place);
        let words =
            format!("byte {byte}, the client of bid {number}, is {by}; the clients are 1 to {n}");
        Place::at(byte, words).beyond(&by)
    });
    let of_hours = bid.hours.iter().all(|&hours| hours == 0).then(|| {
        let byte = part.at.hours(place, 0);
        Place::at(
            byte,
            format!("byte {byte}: bid {number} asks for no hour of any kind"),
        )
    });
    let of_amount = outside(bid.amount, 1, MOST_AMOUNT).map(|by| {
        let byte = part.at.amount(place);
        Place::at(
            byte,
            format!("byte {byte}, the amount of bid {number}, is {by}"),
        )
        .beyond(&by)
    });
    let places = [of_client, of_hours, of_amount].into_iter().flatten();
    places.map(|place| place.of("bid", number)).collect()
}

fn too_many(part: &BookPart, client: usize) -> Option<Place> {
    let bids = part.book.bids.iter().enumerate();
    let own: Vec<usize> = bids
        .filter(|(_, bid)| bid.client == client)
        .map(|(at, _)| at)
        .collect();
    let &ninth = own.get(MOST_BIDS)?;
    let by = outside(own.len() as i128, 0, MOST_BIDS as i128)?;
    let words = format!(
        "client {client} has {} bids, {} more than {MOST_BIDS}; the ninth is bid {}, at byte {}",
        own.len(),
        by.by(),
        ninth + 1,
        part.at.bid(ninth)
    );
    let place = Place::at(part.at.bid(ninth), words).of("client", client);
    Some(place.of("bid", ninth + 1).beyond(&by))
}

/// Question 5.
pub fn reserves(part: &BookPart) -> Vec<Place> {
    (0..part.book.bids.len())
        .filter_map(|at| below_reserves(part, at))
        .collect()
}

fn below_reserves(part: &BookPart, at: usize) -> Option<Place> {
    let bid = &part.book.bids[at];
    let reserves = part.book.reserves(bid);
    let by = outside(bid.amount, reserves, i128::MAX)?;
    let (byte, number, client) = (part.at.amount(at), at + 1, bid.client);
    let words = format!(
        "bid {number} of client {client}, whose amount stands at byte {byte}, offers {}, {} less than the \
         reserves of its hours, {reserves}",
        bid.amount,
        by.by()
    );
    let place = Place::at(byte, words)
        .of("bid", number)
        .of("client", client);
    Some(place.beyond(&by))
}
