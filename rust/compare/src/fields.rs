//! Each field moved by one, and set to each end of its range and one past it.

use crate::{Changes, Example, Input};
use reference::Book;

const LARGE: i128 = 1_000_000_000_000;

/// The values around `value` and around both ends of a range, as far as the field can hold them.
fn around(value: i128, low: i128, high: i128, bits: u32) -> Vec<i128> {
    let ends = [low - 1, low, low + 1, high - 1, high, high + 1];
    let held = 0..1 << bits;
    [&[value - 1, value + 1, (1 << bits) - 1], &ends[..]]
        .concat()
        .into_iter()
        .filter(|&new| new != value && held.contains(&new))
        .collect()
}

/// The same for G, which is signed.
fn around_g(value: i128) -> Vec<i128> {
    let ends = [-LARGE, LARGE, 0];
    let near = [ends, ends.map(|end| end - 1), ends.map(|end| end + 1)].concat();
    let far = [
        i128::from(i64::MIN),
        i128::from(i64::MAX),
        value - 1,
        value + 1,
        -value,
    ];
    [&near[..], &far].concat()
}

/// Changes of the book, the sheet staying as it is.
pub fn of_book(example: &Example) -> Vec<Input> {
    let mut changes = Changes::of(example);
    let book = &example.book;
    (0..book.supply.len()).for_each(|kind| of_kind(&mut changes, kind));
    (1..=book.status.len()).for_each(|client| of_client(&mut changes, client));
    (0..book.bids.len()).for_each(|place| of_bid(&mut changes, place));
    counts(&mut changes);
    changes.inputs
}

fn of_kind(changes: &mut Changes, kind: usize) {
    let base = &changes.example.book;
    let supplies = around(base.supply[kind], 0, 200, 8);
    changes.books("field supply", supplies, |book, new| {
        book.supply[kind] = new
    });
    let reserves = around(base.reserve[kind], 0, 10_000, 16);
    changes.books("field reserve", reserves, |book, new| {
        book.reserve[kind] = new
    });
}

fn of_client(changes: &mut Changes, client: usize) {
    let at = client - 1;
    let statuses = around(changes.example.book.status[at], 0, 1, 8);
    changes.books("field status", statuses, |book, new| book.status[at] = new);
    for count in [8, 9] {
        changes.book("eight or nine bids", |book| {
            with_bids_of(book, client, count)
        });
    }
}

fn of_bid(changes: &mut Changes, place: usize) {
    let base = &changes.example.book;
    let bid = &base.bids[place];
    let clients = around(bid.client as i128, 1, base.status.len() as i128, 8);
    changes.books("field client", clients, |book, new| {
        book.bids[place].client = new as usize
    });
    let mut amounts = around(bid.amount, 1, 1_000_000, 32);
    amounts.extend(base.reserves(bid) - 1..=base.reserves(bid) + 1);
    changes.books("field amount", amounts, |book, new| {
        book.bids[place].amount = new
    });
    for kind in 0..bid.hours.len() {
        let hours = around(bid.hours[kind], 0, base.supply[kind], 8);
        changes.books("field hours", hours, |book, new| {
            book.bids[place].hours[kind] = new
        });
    }
    changes.book("field hours none", |book| book.bids[place].hours.fill(0));
    changes.book("bid left out", |book| {
        book.bids.remove(place);
    });
}

/// K, n and m, with the lists that belong to them.
fn counts(changes: &mut Changes) {
    changes.book("kind more", add_kind);
    changes.book("kind fewer", drop_kind);
    changes.book("five kinds", |book| {
        while book.supply.len() < 5 {
            add_kind(book);
        }
    });
    changes.book("client more", |book| book.status.push(0));
    changes.book("seven clients", |book| book.status.resize(7, 0));
    changes.book("client fewer", |book| {
        book.status.pop();
    });
    changes.book("49 bids", |book| fill_up(book, 49));
}

/// The book filled up to 48 bids, which takes the reference long.
pub fn filled_up(example: &Example) -> Input {
    let mut changes = Changes::of(example);
    changes.book("48 bids", |book| fill_up(book, 48));
    changes.inputs.remove(0)
}

/// Repeats a client's bid, or another's, until the client has this many.
fn with_bids_of(book: &mut Book, client: usize, count: usize) {
    let of_client = |book: &Book| (book.bids.iter().filter(|bid| bid.client == client)).count();
    let Some(bid) = (book.bids.iter().find(|bid| bid.client == client)).or(book.bids.first())
    else {
        return;
    };
    let mut bid = bid.clone();
    bid.client = client;
    while of_client(book) < count {
        book.bids.push(bid.clone());
    }
}

/// Repeats the first bid for clients 1 to 6 in turn until there are m bids.
fn fill_up(book: &mut Book, m: usize) {
    let Some(bid) = book.bids.first().cloned() else {
        return;
    };
    book.status.resize(6, 0);
    while book.bids.len() < m {
        let of_client = |client| (book.bids.iter().filter(|bid| bid.client == client)).count();
        let client = (1..=6).min_by_key(|&client| of_client(client)).unwrap_or(1);
        book.bids.push(bid.clone());
        book.bids.last_mut().expect("a bid was pushed").client = client;
    }
}

fn add_kind(book: &mut Book) {
    book.supply.push(1);
    book.reserve.push(1);
    for bid in &mut book.bids {
        bid.hours.push(0);
    }
}

fn drop_kind(book: &mut Book) {
    book.supply.pop();
    book.reserve.pop();
    for bid in &mut book.bids {
        bid.hours.pop();
    }
}

/// Changes of the sheet, the book staying as it is.
pub fn of_sheet(example: &Example) -> Vec<Input> {
    let mut changes = Changes::of(example);
    let base = &example.sheet;
    changes.sheets("field q", around(base.q, 1, 10_000, 32), |sheet, new| {
        sheet.q = new
    });
    changes.sheets("field s", around(base.s, 1, 10_000, 32), |sheet, new| {
        sheet.s = new
    });
    changes.sheets("field G", around_g(base.g), |sheet, new| sheet.g = new);
    (0..base.w()).for_each(|j| of_winner(&mut changes, j));
    base.set_numbers().for_each(|set| of_set(&mut changes, set));
    changes.inputs
}

fn of_winner(changes: &mut Changes, j: usize) {
    let winner = changes.example.sheet.winners[j];
    let reserve = changes.example.sheet.q * changes.example.weights.rho[j];
    let in_range = around(winner.x, 0, 10_000_000_000, 64);
    changes.sheets("field X", in_range, |sheet, new| sheet.winners[j].x = new);
    let at_reserve = around(winner.x, 0, reserve, 64);
    changes.sheets("field X at reserve", at_reserve, |sheet, new| {
        sheet.winners[j].x = new
    });
    let z = around(winner.z, 0, 10_000, 32);
    changes.sheets("field Z", z, |sheet, new| sheet.winners[j].z = new);
    let r = around(winner.r, 0, LARGE, 64);
    changes.sheets("field R", r, |sheet, new| sheet.winners[j].r = new);
    let t = around(winner.t, 0, LARGE, 64);
    changes.sheets("field T", t, |sheet, new| sheet.winners[j].t = new);
}

fn of_set(changes: &mut Changes, set: usize) {
    let multipliers = changes.example.sheet.sets[set];
    let y = around(multipliers.y, 0, 10_000, 32);
    changes.sheets("field Y", y, |sheet, new| sheet.sets[set].y = new);
    let u = around(multipliers.u, 0, LARGE, 64);
    changes.sheets("field U", u, |sheet, new| sheet.sets[set].u = new);
}
