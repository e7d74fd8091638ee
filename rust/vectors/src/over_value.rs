//! Lines over a book that is a value: books that were read, and the same with changes, sound or not.

use crate::over_bytes::{full_book, six_clients};
use crate::Line;
use generate::by_hand::book_a;
use generate::{winning_combinations, write};

/// A change: which field, the place in it, the new number.
pub type Change = (u8, u8, u32);

pub const K: u8 = 0;
pub const SUPPLY: u8 = 1;
pub const RESERVE: u8 = 2;
pub const N: u8 = 3;
pub const CAPS: u8 = 4;
pub const M: u8 = 5;
pub const CLIENT: u8 = 6;
pub const HOURS: u8 = 7;
pub const AMOUNT: u8 = 8;

/// Changes, and the bytes of the book that they are made to.
pub fn changed(changes: &[Change], book: &[u8]) -> Vec<u8> {
    let mut bytes = vec![changes.len() as u8];
    for &(field, place, number) in changes {
        bytes.extend([field, place]);
        bytes.extend(number.to_be_bytes());
    }
    bytes.extend(book);
    bytes
}

/// Bids 4 to 9 of client 1 in call A's book, which make it nine of one client with those before.
pub fn nine_bids() -> Vec<Change> {
    let mut changes = vec![(M, 0, 9), (CLIENT, 1, 1), (CLIENT, 2, 1)];
    for place in 3..9 {
        changes.extend([(CLIENT, place, 1), (HOURS, 4 * place, 1), (AMOUNT, place, 50)]);
    }
    changes
}

/// Values that no bytes can hold, or that a reading refuses: each changes call A's book.
pub fn unsound() -> Vec<(&'static str, Vec<Change>)> {
    vec![
        ("k 0", vec![(K, 0, 0)]),
        ("k 5", vec![(K, 0, 5)]),
        ("n 0", vec![(N, 0, 0)]),
        ("n 7", vec![(N, 0, 7)]),
        ("m 49", vec![(M, 0, 49)]),
        ("supply 201", vec![(SUPPLY, 0, 201)]),
        ("reserve 10001", vec![(RESERVE, 0, 10_001)]),
        ("a bid of client 0", vec![(CLIENT, 2, 0)]),
        ("a bid of client 4", vec![(CLIENT, 2, 4)]),
        ("no hours", vec![(HOURS, 8, 0)]),
        ("amount 0", vec![(AMOUNT, 2, 0)]),
        ("amount 4294967295", vec![(AMOUNT, 2, u32::MAX)]),
        ("nine bids of a client", nine_bids()),
        ("amount below reserves", vec![(AMOUNT, 2, 19)]),
    ]
}

/// Values that are sound, though not as they were read: each changes call A's book.
fn changes() -> Vec<(&'static str, Vec<Change>)> {
    vec![
        ("as it was read", vec![]),
        ("a second kind", vec![(K, 0, 2), (SUPPLY, 1, 3), (HOURS, 1, 4)]),
        ("k 4", vec![(K, 0, 4)]),
        ("n 6", vec![(N, 0, 6)]),
        ("m 0", vec![(M, 0, 0)]),
        ("m 2", vec![(M, 0, 2)]),
        ("a fourth bid", vec![(M, 0, 4), (CLIENT, 3, 3), (HOURS, 12, 1), (AMOUNT, 3, 90)]),
        ("supply 0", vec![(SUPPLY, 0, 0)]),
        ("supply 200", vec![(SUPPLY, 0, 200)]),
        ("reserve 35", vec![(RESERVE, 0, 35)]),
        ("cap of client 1 is 0", vec![(CAPS, 0, 0)]),
        ("cap of client 1 is 1", vec![(CAPS, 0, 1)]),
        ("cap of client 1 is 65534", vec![(CAPS, 0, 65_534)]),
        ("all withdrawn", vec![(CAPS, 0, 0), (CAPS, 1, 0), (CAPS, 2, 0)]),
        ("two bids of client 1", vec![(CLIENT, 1, 1)]),
        ("bid 3 for one hour", vec![(HOURS, 8, 1)]),
        ("amount 1000000", vec![(AMOUNT, 2, 1_000_000)]),
        ("amount at the reserves", vec![(AMOUNT, 2, 20)]),
        ("supply and reserve past the kinds", vec![(SUPPLY, 3, 255), (RESERVE, 3, 65_535)]),
        ("a cap past the clients", vec![(CAPS, 5, 0)]),
        ("hours past the kinds", vec![(HOURS, 1, 255), (HOURS, 3, 255)]),
        ("a bid past the bids", vec![(CLIENT, 3, 9), (HOURS, 12, 255), (AMOUNT, 47, u32::MAX)]),
    ]
}

/// The edges of a sound value.
fn edges() -> Vec<(&'static str, Vec<Change>)> {
    vec![
        ("k 255", vec![(K, 0, 255)]),
        ("n 255", vec![(N, 0, 255)]),
        ("n 2", vec![(N, 0, 2)]),
        ("m 4 of three bids", vec![(M, 0, 4)]),
        ("m 48", vec![(M, 0, 48)]),
        ("m 255", vec![(M, 0, 255)]),
        ("supply 255", vec![(SUPPLY, 0, 255)]),
        ("reserve 10000", vec![(RESERVE, 0, 10_000)]),
        ("reserve 65535", vec![(RESERVE, 0, 65_535)]),
        ("client 255", vec![(CLIENT, 0, 255)]),
        ("255 hours", vec![(HOURS, 0, 255)]),
        ("amount 9", vec![(AMOUNT, 0, 9)]),
        ("amount 10", vec![(AMOUNT, 0, 10)]),
        ("amount 1000001", vec![(AMOUNT, 0, 1_000_001)]),
        ("2 before 3", vec![(K, 0, 0), (SUPPLY, 0, 201)]),
        ("3 before 4", vec![(SUPPLY, 0, 201), (CLIENT, 0, 0)]),
        ("4 before 5", vec![(AMOUNT, 0, 1), (CLIENT, 2, 0)]),
        ("eight bids of a client", nine_bids().into_iter().chain([(M, 0, 8)]).collect()),
    ]
}

fn sound_lines() -> Vec<Line> {
    let line = |(label, changes): (&str, Vec<Change>)| Line::new('S', label, &[&changed(&changes, &book_a())]);
    let mut lines: Vec<Line> = [unsound(), changes(), edges()].concat().into_iter().map(line).collect();
    let from_nothing = vec![(K, 0, 1), (N, 0, 1), (M, 0, 1), (CLIENT, 0, 1), (HOURS, 0, 1), (AMOUNT, 0, 1)];
    lines.push(Line::new('S', "nothing", &[&changed(&[], &[])]));
    lines.push(Line::new('S', "a book made from nothing", &[&changed(&from_nothing, &[])]));
    lines.push(Line::new('S', "no room for a place", &[&changed(&[(CAPS, 6, 9), (HOURS, 192, 9), (AMOUNT, 48, 9)], &book_a())]));
    let full = write::book(&full_book());
    lines.push(Line::new('S', "a full book", &[&changed(&[], &full)]));
    let other = u32::from(full_book().bids[0].client as u8 % 6 + 1);
    lines.push(Line::new('S', "a full book, nine bids of a client", &[&changed(&[(CLIENT, 0, other)], &full)]));
    lines
}

/// What a book has under a number: of each bid and client, and past them.
fn number_lines() -> Vec<Line> {
    let mut lines = Vec::new();
    let mut add = |letter: char, label: String, number: u8, changes: &[Change], book: &[u8]| {
        lines.push(Line::new(letter, label, &[&[number], &changed(changes, book)]));
    };
    let six = six_clients();
    for letter in ['c', 'a', 'r', 'l', 'h'] {
        for number in [0, 1, 2, 7, 8, 255] {
            add(letter, format!("bid {number} of seven"), number, &[], &six);
        }
        add(letter, "bid 48, m 255".into(), 48, &[(M, 0, 255), (CLIENT, 47, 9), (HOURS, 189, 3), (AMOUNT, 47, u32::MAX)], &six);
        add(letter, "bid 49, m 255".into(), 49, &[(M, 0, 255)], &six);
        add(letter, "bid 2, k 1".into(), 2, &[(K, 0, 1)], &six);
        add(letter, "bid 2, k 0".into(), 2, &[(K, 0, 0)], &six);
        add(letter, "bid 2, k 255".into(), 2, &[(K, 0, 255), (HOURS, 7, 255), (RESERVE, 3, 65_535)], &six);
    }
    for client in [0, 1, 3, 6, 7, 255] {
        add('t', format!("client {client} of six"), client, &[], &six);
    }
    add('t', "client 1, cap 0".into(), 1, &[(CAPS, 0, 0)], &six);
    add('t', "client 3, cap 1".into(), 3, &[(CAPS, 2, 1)], &six);
    add('t', "client 6, n 255".into(), 6, &[(N, 0, 255)], &six);
    add('t', "client 7, n 255".into(), 7, &[(N, 0, 255)], &six);
    for k in [0, 1, 2, 4, 255] {
        let label = format!("supplies, k {k}");
        lines.push(Line::new('s', label, &[&changed(&[(K, 0, k), (SUPPLY, 3, 9)], &six)]));
    }
    lines
}

fn worth_lines() -> Vec<Line> {
    let line = |(label, changes): (&str, Vec<Change>)| Line::new('g', label, &[&[0], &changed(&changes, &book_a())]);
    let mut lines: Vec<Line> = [unsound(), changes()].concat().into_iter().map(line).collect();
    for discard in [1, 7, 8, 255] {
        lines.push(Line::new('g', format!("discard byte {discard}"), &[&[discard], &changed(&[], &book_a())]));
    }
    lines.push(Line::new('g', "2 before 16", &[&[8], &changed(&[(K, 0, 0)], &book_a())]));
    lines.push(Line::new('g', "nothing", &[&[0], &changed(&[], &[])]));
    lines
}

fn table_lines() -> Vec<Line> {
    let both = [2, 1, 2, 0, 0, 0, 0];
    let line = |(label, changes): (&str, Vec<Change>)| Line::new('u', label, &[&both, &changed(&changes, &book_a())]);
    let mut lines: Vec<Line> = unsound().into_iter().map(line).collect();
    lines.extend(changes().into_iter().skip(1).step_by(3).map(line));
    lines.push(Line::new('u', "2 before 16", &[&[7, 1, 1, 0, 0, 0, 0], &changed(&[(K, 0, 0)], &book_a())]));
    lines.push(Line::new('u', "six clients, all of them", &[&[6, 1, 2, 3, 4, 5, 6], &changed(&[], &six_clients())]));
    lines.push(Line::new('u', "client 3 stands", &[&[3, 1, 3, 5, 0, 0, 0], &changed(&[(CAPS, 2, 1)], &six_clients())]));
    lines
}

fn weigh_lines() -> Vec<Line> {
    let both = [2, 1, 2, 0, 0, 0, 0];
    let line = |(label, changes): (&str, Vec<Change>)| Line::new('W', label, &[&both, &changed(&changes, &book_a())]);
    let mut lines: Vec<Line> = [unsound(), changes()].concat().into_iter().map(line).collect();
    lines.push(Line::new('W', "2 before 8", &[&[7, 9, 9, 0, 0, 0, 0], &changed(&[(K, 0, 0)], &book_a())]));
    lines.push(Line::new('W', "8 before 9", &[&[2, 2, 1, 0, 0, 0, 0], &changed(&[(AMOUNT, 2, 999)], &book_a())]));
    lines.push(Line::new('W', "no bids of an empty book", &[&[0; 7], &changed(&[(M, 0, 0)], &book_a())]));
    let book = full_book();
    for winners in winning_combinations(&book).iter().take(1) {
        let mut bids = vec![winners.len() as u8];
        bids.extend(winners.iter().map(|&bid| bid as u8));
        bids.resize(7, 0);
        lines.push(Line::new('W', "the winners of a full book", &[&bids, &changed(&[], &write::book(&book))]));
    }
    lines
}

pub fn lines() -> Vec<Line> {
    let mut all = sound_lines();
    all.extend(number_lines());
    all.extend(worth_lines());
    all.extend(table_lines());
    all.extend(weigh_lines());
    all
}
