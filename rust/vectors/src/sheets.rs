//! Lines of judging: calls A to I and a call for each number, over bytes and over a value; and of the sheet's reader.

use crate::over_value::{changed, unsound, Change, AMOUNT, CAPS, M, N, RESERVE, SUPPLY};
use crate::Line;
use generate::by_hand::{book_a, book_i, sheet_a, sheet_i, x, S, W};

/// A book with a byte changed.
fn with(at: usize, byte: u8) -> Vec<u8> {
    let mut book = book_a();
    book[at] = byte;
    book
}

/// Call A's sheet with other discounts, and with no change but these.
fn discounted(a: u64, b: u64) -> S {
    S { winners: vec![x(a), x(b)], ..sheet_a() }
}

/// The sheets of calls A to G, each with the changes that make its book of call A's.
fn worked() -> Vec<(&'static str, Vec<Change>, S)> {
    let sheet_c = S { winners: vec![W { z: 1, ..x(50) }, W { z: 1, ..x(40) }], g: 10, sets: vec![], ..sheet_a() };
    let sheet_d = S { winners: vec![x(10), W { r: 5, ..x(5) }], g: 5, ..sheet_a() };
    vec![
        ("call A", vec![], sheet_a()),
        ("call B", vec![(AMOUNT, 2, 71)], S { q: 2, g: 39, ..discounted(39, 39) }),
        ("call C", vec![(CAPS, 2, 0)], sheet_c),
        ("call D", vec![(RESERVE, 0, 20), (AMOUNT, 1, 25)], sheet_d),
        ("call E", vec![], discounted(21, 20)),
        ("call F", vec![], discounted(20, 19)),
        ("call G", vec![], discounted(40, 0)),
    ]
}

/// Sheets over call A's book that a question from 6 on refuses, each with its number.
fn refused() -> Vec<(u8, S)> {
    let one = S { bids: vec![3], winners: vec![x(0)], g: 0, sets: vec![], ..sheet_a() };
    let both = W { r: 1, t: 1, ..x(20) };
    vec![
        (7, S { q: 0, ..sheet_a() }),
        (8, S { bids: vec![2, 1], ..sheet_a() }),
        (9, one),
        (10, discounted(51, 0)),
        (12, S { sets: vec![], ..sheet_a() }),
        (15, S { winners: vec![both, x(20)], ..sheet_a() }),
    ]
}

/// The bytes of the worked calls' own books, where a change of a value has one of bytes.
fn book_of(call: &str) -> Vec<u8> {
    match call {
        "call B" => with(29, 71),
        "call C" => with(10, 1),
        "call D" => {
            let mut book = with(6, 20);
            book[23] = 25;
            book
        }
        _ => book_a(),
    }
}

fn over_bytes() -> Vec<Line> {
    let judge = |label: String, input: Vec<u8>| Line::new('J', label, &[&input]);
    let mut lines: Vec<Line> = worked().into_iter().map(|(call, _, sheet)| judge(call.into(), sheet.after(&book_of(call)))).collect();
    lines.extend(refused().into_iter().map(|(number, sheet)| judge(format!("refused with {number}"), sheet.after(&book_a()))));
    lines.push(judge("call I".into(), sheet_i().after(&book_i())));
    lines.push(judge("nothing".into(), vec![]));
    lines.push(judge("a book alone".into(), book_a()));
    for (number, at, byte) in [(1, 0, 2), (2, 3, 5), (3, 4, 201), (4, 12, 0), (5, 17, 9)] {
        lines.push(judge(format!("refused with {number}"), sheet_a().after(&with(at, byte))));
    }
    lines
}

fn over_value() -> Vec<Line> {
    let judge = |label: String, changes: &[Change], part: &[u8]| Line::new('O', label, &[&changed(changes, &book_a()), part]);
    let mut lines: Vec<Line> =
        worked().into_iter().map(|(call, changes, sheet)| judge(call.into(), &changes, &sheet.bytes())).collect();
    lines.extend(refused().into_iter().map(|(number, sheet)| judge(format!("refused with {number}"), &[], &sheet.bytes())));
    // a book that fails is answered with its number, whatever the sheet is
    lines.extend(unsound().into_iter().map(|(label, changes)| judge(label.into(), &changes, &sheet_i().bytes())));
    let a = sheet_a().bytes();
    for (label, changes) in [
        ("the winners' supply is gone", vec![(SUPPLY, 0, 1)]),
        ("a winner is withdrawn", vec![(CAPS, 0, 0)]),
        ("bid 3 is worth more", vec![(AMOUNT, 2, 111)]),
        ("bid 3 is left out", vec![(M, 0, 2)]),
    ] {
        lines.push(judge(label.into(), &changes, &a));
    }
    lines.push(judge("no sheet".into(), &[], &[]));
    lines.push(judge("a byte too few".into(), &[], &a[..a.len() - 1]));
    lines.push(judge("a byte too many".into(), &[], &[&a[..], &[0]].concat()));
    lines.push(judge("more winners than clients".into(), &[(N, 0, 1), (M, 0, 1)], &a));
    lines.push(judge("no bids, no winner".into(), &[(M, 0, 0)], &sheet_i().bytes()));
    lines.push(Line::new('O', "nothing", &[&changed(&[], &[])]));
    lines
}

/// A sheet of six winners whose numbers are all different, G below zero.
fn six_winners() -> Vec<u8> {
    let winner = |j: u64| W { x: 1_000_000_000_000_000_000 + j, z: 4_000_000_000 + j as u32, r: 2_000 + j, t: u64::MAX - j };
    let set = |set: usize| (set, 100 + set as u32, 1 << set);
    let (winners, sets) = ((0..6).map(winner).collect(), (1..64).map(set).collect());
    S { bids: vec![9, 8, 7, 255, 0, 1], q: u32::MAX, s: 77, winners, g: -5, sets }.bytes()
}

fn readings() -> Vec<Line> {
    let a = sheet_a().bytes();
    let read = |label: &str, n: u8, part: &[u8]| Line::new('F', label, &[&[n], part]);
    let with = |at: usize, byte: u8| {
        let mut part = a.clone();
        part[at] = byte;
        part
    };
    let mut lines = vec![
        read("call A, two clients", 2, &a),
        read("call A, 255 clients", 255, &a),
        read("call A, one client", 1, &a),
        read("no winner, no client", 0, &sheet_i().bytes()),
        read("six winners", 6, &six_winners()),
        read("version 0", 3, &with(0, 0)),
        read("own length one too small", 3, &with(2, a[2] - 1)),
        read("w 1", 3, &with(3, 1)),
        read("w 7 of 255", 255, &with(3, 7)),
        read("w 255 of 255", 255, &with(3, 255)),
        read("a byte too few", 3, &a[..a.len() - 1]),
        read("a byte too many", 3, &[&a[..], &[0]].concat()),
        read("three bytes", 3, &a[..3]),
        read("nothing", 3, &[]),
    ];
    let bids = |label: &str, part: &[u8]| Line::new('f', label, &[part]);
    lines.extend([
        bids("call A", &a[..20]),
        bids("six winners", &six_winners()[..12]),
        bids("w 255", &[1, 0, 0, 255, 1, 2, 3, 4, 5, 6, 7, 8]),
        bids("w 6 of three bytes", &[1, 0, 0, 6, 1, 2, 3]),
        bids("w 0", &[1, 0, 20, 0, 9, 9]),
        bids("nothing", &[]),
    ]);
    lines
}

pub fn lines() -> Vec<Line> {
    [over_bytes(), over_value(), readings()].into_iter().flatten().collect()
}
