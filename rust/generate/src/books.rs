//! Random sound books of many characters.

use crate::planted::planted_book;
use crate::Rng;
use reference::{Bid, Book};

/// What a random book is like.
struct Character {
    /// Most bids of a client, at most eight.
    most_bids: usize,
    /// Least bids of a client.
    least_bids: usize,
    most_supply: i128,
    /// Most hours of a kind in a usual bid.
    most_hours: i128,
    most_reserve: i128,
    /// Most that a bid offers above its reserves.
    most_surplus: i128,
    /// Whether that is for each of its hours, and at least half of it is offered. Such bids contend
    /// for the same hours at like prices, and many sets of winners bound the discounts.
    contested: bool,
    withdrawn_percent: i128,
    /// How often a bid repeats an earlier one of its client.
    equal_percent: i128,
    /// How often a bid asks for any number of hours, up to 255.
    wild_percent: i128,
}

impl Character {
    fn random(rng: &mut Rng) -> Character {
        if rng.chance(50) {
            Character::any(rng)
        } else {
            Character::contested(rng)
        }
    }

    fn contested(rng: &mut Rng) -> Character {
        let most_bids = *rng.pick(&[1, 2, 3, 4, 5]);
        Character {
            most_bids,
            least_bids: 1,
            most_supply: *rng.pick(&[1, 2, 3, 4, 6, 9]),
            most_hours: *rng.pick(&[1, 2, 3]),
            most_reserve: *rng.pick(&[0, 0, 2, 20]),
            most_surplus: *rng.pick(&[4, 20, 300, 20_000]),
            contested: true,
            withdrawn_percent: *rng.pick(&[0, 0, 0, 20]),
            equal_percent: 0,
            wild_percent: 0,
        }
    }

    fn any(rng: &mut Rng) -> Character {
        let most_bids = *rng.pick(&[1, 2, 2, 3, 4, 8]);
        Character {
            most_bids,
            least_bids: *rng.pick(&[0, 1, 1, most_bids]),
            most_supply: *rng.pick(&[0, 1, 2, 2, 3, 4, 5, 6, 8, 12, 40, 200]),
            most_hours: *rng.pick(&[1, 1, 2, 3, 5, 40]),
            most_reserve: *rng.pick(&[0, 0, 1, 5, 100, 10_000]),
            most_surplus: *rng.pick(&[0, 1, 3, 10, 60, 1_000, 1_000_000]),
            contested: false,
            withdrawn_percent: *rng.pick(&[0, 0, 0, 10, 50]),
            equal_percent: *rng.pick(&[0, 0, 20]),
            wild_percent: *rng.pick(&[0, 0, 5, 30]),
        }
    }
}

/// A sound book of any K and n, of a random character.
pub fn random_book(rng: &mut Rng) -> Book {
    if rng.chance(40) {
        return planted_book(rng, 8);
    }
    let k = rng.index(1, 4);
    let n = rng.index(1, 6);
    let character = Character::random(rng);
    book(rng, k, n, &character)
}

/// A sound book with few bids, for tests that list its combinations many times.
pub fn small_book(rng: &mut Rng) -> Book {
    if rng.chance(50) {
        return planted_book(rng, 2);
    }
    let k = rng.index(1, 3);
    let n = rng.index(1, 6);
    let mut character = Character::random(rng);
    character.most_bids = character.most_bids.min(2);
    character.least_bids = character.least_bids.min(2);
    book(rng, k, n, &character)
}

fn book(rng: &mut Rng, k: usize, n: usize, character: &Character) -> Book {
    let least_supply = *rng.pick(&[0, character.most_supply / 2, character.most_supply]);
    let mut book = Book {
        supply: (0..k)
            .map(|_| rng.range(least_supply, character.most_supply))
            .collect(),
        reserve: (0..k)
            .map(|_| rng.range(0, character.most_reserve))
            .collect(),
        status: (0..n)
            .map(|_| i128::from(rng.chance(character.withdrawn_percent)))
            .collect(),
        bids: Vec::new(),
    };
    for client in 1..=n {
        let mut own: Vec<Bid> = Vec::new();
        for _ in 0..rng.index(
            character.least_bids.min(character.most_bids),
            character.most_bids,
        ) {
            let bid = if !own.is_empty() && rng.chance(character.equal_percent) {
                rng.pick(&own).clone()
            } else {
                bid(rng, &book, client, character)
            };
            own.push(bid);
        }
        book.bids.extend(own);
    }
    if rng.chance(50) {
        rng.shuffle(&mut book.bids);
    }
    book
}

/// A bid of at least one hour, at its reserves or above, of 1 to 1,000,000.
fn bid(rng: &mut Rng, book: &Book, client: usize, character: &Character) -> Bid {
    let k = book.supply.len();
    let most = if rng.chance(character.wild_percent) {
        255
    } else {
        character.most_hours
    };
    let mut hours: Vec<i128> = (0..k)
        .map(|_| {
            if rng.chance(60) {
                rng.range(0, most)
            } else {
                0
            }
        })
        .collect();
    if hours.iter().all(|&h| h == 0) {
        hours[rng.index(0, k - 1)] = 1;
    }
    let mut bid = Bid {
        client,
        hours,
        amount: 0,
    };
    while book.reserves(&bid) > 1_000_000 {
        for hours in &mut bid.hours {
            *hours -= *hours / 2;
        }
    }
    let least = book.reserves(&bid);
    let surplus = if character.contested {
        let most = character.most_surplus * bid.hours.iter().sum::<i128>();
        rng.range(most / 2, most)
    } else {
        rng.range(0, character.most_surplus)
    };
    bid.amount = (least + surplus).clamp(1, 1_000_000);
    bid
}
