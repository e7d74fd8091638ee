//! Winners reordered, repeated, left out, added and exchanged.

use crate::{Changes, Example, Input};
use generate::Rng;
use reference::combinations::is_combination;
use reference::sheet::Winner;
use reference::{Book, Multipliers, Sheet, Weights};

pub fn changed(rng: &mut Rng, example: &Example) -> Vec<Input> {
    let mut changes = Changes::of(example);
    let w = example.sheet.w();
    (0..w * w).for_each(|pair| exchanged(&mut changes, pair / w, pair % w));
    (0..w).for_each(|i| of_one(&mut changes, i));
    for bid in 0..=example.book.bids.len() + 1 {
        changes.sheet("winner added", |sheet| add_winner(sheet, bid));
    }
    changes.sheet("winners up to n + 1", |sheet| {
        while sheet.winners.len() <= example.book.status.len() {
            add_winner(sheet, 1);
        }
    });
    (0..8).for_each(|_| other_combination(&mut changes, rng));
    changes.inputs
}

/// Two winners, the first of them counted after the second.
fn exchanged(changes: &mut Changes, i: usize, j: usize) {
    if j >= i {
        return;
    }
    changes.sheet("winners exchanged", |sheet| sheet.winners.swap(i, j));
    changes.sheet("bids exchanged", |sheet| {
        let bid = sheet.winners[i].bid;
        sheet.winners[i].bid = sheet.winners[j].bid;
        sheet.winners[j].bid = bid;
    });
    changes.sheet("winner repeated", |sheet| {
        sheet.winners[i].bid = sheet.winners[j].bid
    });
}

fn of_one(changes: &mut Changes, i: usize) {
    for bid in (0..=changes.example.book.bids.len() + 1).chain([255]) {
        changes.sheet("bid number", |sheet| sheet.winners[i].bid = bid);
    }
    changes.sheet("winner left out", |sheet| {
        sheet.winners.remove(i);
        sheet.sets.truncate(1 << sheet.winners.len());
    });
}

/// Another combination, with no multipliers and with those that its own σ would ask for.
fn other_combination(changes: &mut Changes, rng: &mut Rng) {
    let example = changes.example;
    let list = any_combination(rng, &example.book);
    changes.sheet("other combination", |sheet| *sheet = plain_sheet(&list));
    let weights = Weights::from_values(&example.book, &example.values, &list);
    changes.sheet("other combination, balanced", |sheet| {
        *sheet = sheet_as_if_won(&weights, &list)
    });
}

/// Bids taken in a random order where they still make a combination, by rising client.
fn any_combination(rng: &mut Rng, book: &Book) -> Vec<usize> {
    let mut order: Vec<usize> = (1..=book.bids.len()).collect();
    rng.shuffle(&mut order);
    let tried = rng.index(0, order.len());
    let mut list = Vec::new();
    for &bid in &order[..tried] {
        list.push(bid);
        if !is_combination(book, &list) {
            list.pop();
        }
    }
    list.sort_by_key(|&bid| book.bid(bid).map(|bid| bid.client));
    list
}

fn add_winner(sheet: &mut Sheet, bid: usize) {
    let winner = Winner {
        bid,
        ..Winner::default()
    };
    sheet.winners.push(winner);
    let sets = 1 << sheet.winners.len();
    sheet.sets.resize(sets, Multipliers::default());
}

/// No discounts and no multipliers.
fn plain_sheet(bids: &[usize]) -> Sheet {
    let mut sheet = Sheet {
        q: 1,
        s: 1,
        winners: Vec::new(),
        g: 0,
        sets: vec![Multipliers::default()],
    };
    for &bid in bids {
        add_winner(&mut sheet, bid);
    }
    sheet
}

/// No discounts, each winner held at zero and covered by its Z.
fn sheet_as_if_won(weights: &Weights, bids: &[usize]) -> Sheet {
    let mut sheet = plain_sheet(bids);
    for (j, winner) in sheet.winners.iter_mut().enumerate() {
        winner.z = 1;
        winner.r = weights.sigma_of_one(j).max(0);
        winner.t = (-weights.sigma_of_one(j)).max(0);
    }
    sheet
}
