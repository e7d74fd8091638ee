//! The sheet's part of a report: each number that it says, and what the questions weigh it against.

use crate::json::Json;
use crate::library::Reply;
use crate::sums::Sums;
use reference::sheet::holds;
use reference::{Book, Sheet};

pub fn sheet_head(sheet: &Sheet) -> Json {
    Json::Object(vec![
        ("q", sheet.q.into()),
        ("s", sheet.s.into()),
        ("G", sheet.g.into()),
    ])
}

/// Each winner; its figures are null where there is no σ.
pub fn winners(book: &Book, sheet: &Sheet, sums: Option<&Sums>, reply: &Reply) -> Json {
    let winners = 0..sheet.w();
    Json::List(
        winners
            .map(|j| winner(book, sheet, sums, reply, j))
            .collect(),
    )
}

fn winner(book: &Book, sheet: &Sheet, sums: Option<&Sums>, reply: &Reply, j: usize) -> Json {
    let said = &sheet.winners[j];
    let bid = book.bid(said.bid);
    let price = (reply.number == 0).then(|| i128::from(reply.prices[j]));
    Json::Object(vec![
        ("winner", j.into()),
        ("bid", said.bid.into()),
        ("client", bid.map(|bid| bid.client).into()),
        ("amount", bid.map(|bid| bid.amount).into()),
        ("price", price.into()),
        ("X", said.x.into()),
        ("Z", said.z.into()),
        ("R", said.r.into()),
        ("T", said.t.into()),
        ("rho", sums.map(|sums| sums.weights.rho[j]).into()),
        (
            "sigma",
            sums.map(|sums| sums.weights.sigma_of_one(j)).into(),
        ),
        ("slack_10", sums.map(|sums| sums.reserve_slack(j)).into()),
        ("slack_12", sums.map(|sums| sums.cover_slack(j)).into()),
        ("left_14", sums.map(|sums| sums.distance(j)).into()),
        ("right_14", sums.map(|sums| sums.multipliers(j)).into()),
    ])
}

/// Each set of winners, by its number from 1.
pub fn sets(sheet: &Sheet, sums: Option<&Sums>) -> Json {
    let set = |set: usize| {
        let members = (0..sheet.w()).filter(|&k| holds(set, k));
        Json::Object(vec![
            ("set", set.into()),
            ("winners", members.collect::<Vec<_>>().into()),
            ("Y", sheet.sets[set].y.into()),
            ("U", sheet.sets[set].u.into()),
            ("sigma", sums.map(|sums| sums.weights.sigma[set]).into()),
            ("slack_11", sums.map(|sums| sums.set_slack(set)).into()),
        ])
    };
    Json::List(sheet.set_numbers().map(set).collect())
}

/// The two sides of question 9.
pub fn value(sums: &Sums, book: &Book) -> Json {
    let v = sums.weights.v;
    Json::Object(vec![
        ("left", (v - sums.short_of_v(book)).into()),
        ("right", v.into()),
    ])
}

/// The two sides of question 13.
pub fn total(sums: &Sums) -> Json {
    let totals = sums.totals();
    Json::Object(vec![
        ("left", totals.left.into()),
        ("right", totals.right.into()),
    ])
}
