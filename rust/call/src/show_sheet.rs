//! The lines of a sheet, and its balances.

use crate::library::Reply;
use crate::rows::{mark, Rows};
use crate::sums::{members, Sums};
use reference::{Book, Sheet};
use std::fmt::Write;

pub fn sheet_lines(book: &Book, sheet: &Sheet, sums: Option<&Sums>, reply: &Reply) -> String {
    let (q, s, g) = (sheet.q, sheet.s, sheet.g);
    let winners = winner_rows(book, sheet, reply).text();
    let sets = set_rows(sheet, sums).text();
    format!("\nsheet q {q} s {s} G {g}\n\n{winners}\n{sets}")
}

fn winner_rows(book: &Book, sheet: &Sheet, reply: &Reply) -> Rows {
    let mut rows = Rows::default();
    for (j, winner) in sheet.winners.iter().enumerate() {
        let line = format!(
            "winner {j} bid {} X {} Z {} R {} T {}",
            winner.bid, winner.x, winner.z, winner.r, winner.t
        );
        rows.add(line, winner_comment(book, sheet, j, reply));
    }
    rows
}

fn set_rows(sheet: &Sheet, sums: Option<&Sums>) -> Rows {
    let mut rows = Rows::default();
    for set in sheet.set_numbers() {
        let (of, who) = (&sheet.sets[set], members(set, sheet.w()));
        let line = format!("set {set} winners {who} Y {} U {}", of.y, of.u);
        rows.add(
            line,
            sums.map_or(String::new(), |sums| set_comment(sums, set)),
        );
    }
    rows
}

/// The winner's client and amount, and its price where the library has accepted the call.
fn winner_comment(book: &Book, sheet: &Sheet, j: usize, reply: &Reply) -> String {
    let Some(bid) = book.bid(sheet.winners[j].bid) else {
        return "there is no such bid !".to_string();
    };
    let bought = format!("client {}, amount {}", bid.client, bid.amount);
    match (reply.number, reply.prices.get(j)) {
        (0, Some(price)) => format!("{bought}; pays {price} / {}", reply.q),
        _ => bought,
    }
}

fn set_comment(sums: &Sums, set: usize) -> String {
    let (v, sigma) = (sums.weights.v, sums.weights.sigma[set]);
    let slack = sums.set_slack(set);
    format!(
        "σ = {v} - {} = {sigma}; slack = {} × {sigma} - {} = {slack}{}",
        v - sigma,
        sums.sheet.q,
        sums.sheet.x_sum(set),
        mark(slack < 0)
    )
}

/// Questions 10 and 12 to 15, side by side.
pub fn balance_lines(sums: &Sums) -> String {
    let mut text = "\n# 10: q ρ - X, not below zero\n".to_string();
    text += &by_winner(sums, reserve_line);
    text += "# 11: q σ - sum of X, not below zero: the slacks of the sets above\n";
    text += "# 12: Z + Y of the sets that hold the winner - s, not below zero\n";
    text += &by_winner(sums, cover_line);
    text += "# 13: q (sum of Y σ + sum of Z ρ) equal to s (sum of X)\n";
    text += &total_line(sums);
    text += "# 14: q σ - X equal to G + U of the sets that hold the winner + R - T\n";
    text += &by_winner(sums, distance_line);
    text += "# 15: a zero in each pair: R and q ρ - X; T and X; U and the set's slack, where U is not zero\n";
    text += &by_winner(sums, standing_line);
    text += &pairs_of_sets(sums);
    text
}

fn by_winner(sums: &Sums, line: fn(&Sums, usize) -> String) -> String {
    let winners = 0..sums.sheet.w();
    winners
        .map(|j| format!("#     winner {j}: {}\n", line(sums, j)))
        .collect()
}

fn reserve_line(sums: &Sums, j: usize) -> String {
    let slack = sums.reserve_slack(j);
    let (q, rho, x) = (sums.sheet.q, sums.weights.rho[j], sums.sheet.winners[j].x);
    format!("{q} × {rho} - {x} = {slack}{}", mark(slack < 0))
}

fn cover_line(sums: &Sums, j: usize) -> String {
    let (z, y, s) = (sums.sheet.winners[j].z, sums.y_of_sets(j), sums.sheet.s);
    let slack = sums.cover_slack(j);
    format!("{z} + {y} - {s} = {slack}{}", mark(slack < 0))
}

fn total_line(sums: &Sums) -> String {
    let (q, s) = (sums.sheet.q, sums.sheet.s);
    let t = sums.totals();
    let over = t.left - t.right;
    format!(
        "#     {q} × ({} + {}) = {}; {s} × {} = {}; difference {over}{}\n",
        t.of_sets,
        t.of_winners,
        t.left,
        t.discounts,
        t.right,
        mark(over != 0)
    )
}

fn distance_line(sums: &Sums, j: usize) -> String {
    let winner = &sums.sheet.winners[j];
    let (left, right) = (sums.distance(j), sums.multipliers(j));
    format!(
        "{} - {} = {left}; {} + {} + {} - {} = {right}; difference {}{}",
        sums.q_sigma(1 << j),
        winner.x,
        sums.sheet.g,
        sums.u_of_sets(j),
        winner.r,
        winner.t,
        left - right,
        mark(left != right)
    )
}

fn standing_line(sums: &Sums, j: usize) -> String {
    let winner = &sums.sheet.winners[j];
    let slack = sums.reserve_slack(j);
    format!(
        "R {} and {slack}{}; T {} and {}{}",
        winner.r,
        mark(winner.r != 0 && slack != 0),
        winner.t,
        winner.x,
        mark(winner.t != 0 && winner.x != 0)
    )
}

/// The sets whose U is not zero.
fn pairs_of_sets(sums: &Sums) -> String {
    let mut text = String::new();
    let with_u = sums
        .sheet
        .set_numbers()
        .filter(|&set| sums.sheet.sets[set].u != 0);
    for set in with_u {
        let (u, slack) = (sums.sheet.sets[set].u, sums.set_slack(set));
        let _ = writeln!(
            text,
            "#     set {set}: U {u} and {slack}{}",
            mark(slack != 0)
        );
    }
    text
}
