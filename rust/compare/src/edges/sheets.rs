//! Edges of questions 6 to 8, on the book and the sheet of call A, and the seven lengths.

use super::books::book_of;
use super::{each, with, Edge};
use generate::by_hand::{book_a, book_i, sheet_a, sheet_i, x, S, W};

pub fn edges() -> Vec<Edge> {
    let mut edges = question_6();
    edges.extend(as_many_as_clients());
    edges.extend(seven_lengths());
    edges.extend(winners_past_the_lengths());
    edges.extend(ranges_without_winners());
    edges.extend(ranges_of_winners());
    edges.extend(ranges_of_sets());
    edges.extend(question_8());
    edges.extend(no_supply());
    edges
}

/// The sheet begins at 30, with its length at 31 and w at 33.
fn question_6() -> Vec<Edge> {
    let input = sheet_a().after(&book_a());
    let edge = |number, bytes| Edge::new("edge of 6", number, bytes);
    let mut edges = vec![
        edge(0, input.clone()),
        edge(6, [&input[..], &[0]].concat()),
        edge(6, [&input[..], &input[..]].concat()),
        edge(6, with(&input, 30, &[0])),
        edge(6, with(&input, 30, &[2])),
        edge(6, with(&input, 31, &[0, 113])),
        edge(6, with(&input, 31, &[0, 115])),
        edge(6, with(&input, 31, &[1, 114])),
    ];
    edges.extend((30..input.len()).map(|end| edge(6, input[..end].to_vec())));
    edges.extend([0, 1, 3, 4, 7, 255].map(|w| edge(6, with(&input, 33, &[w]))));
    edges
}

/// No discounts and no multipliers for these bids.
fn plain(bids: &[u8]) -> S {
    S {
        bids: bids.to_vec(),
        winners: vec![x(0); bids.len()],
        sets: vec![],
        g: 0,
        ..sheet_a()
    }
}

/// As many winners as clients are allowed by 6, and one more is not.
fn as_many_as_clients() -> Vec<Edge> {
    let edge =
        |number, bids: &[u8]| Edge::new("edge of 6, w", number, plain(bids).after(&book_a()));
    vec![edge(8, &[1, 2, 3]), edge(6, &[1, 2, 3, 3])]
}

/// The lengths of sheets with 0 to 6 winners.
const LENGTHS: [usize; 7] = [20, 61, 114, 191, 316, 537, 950];

/// The sheet by which each of these bids wins and pays nothing.
fn each_wins(bids: &[u8]) -> S {
    let winner = W { z: 1, ..x(7) };
    S {
        winners: vec![winner; bids.len()],
        ..plain(bids)
    }
}

/// The sheet cut, or filled up with zeros, to a length that it also gives itself.
fn of_length(sheet: &[u8], length: usize) -> Vec<u8> {
    let mut bytes = with(sheet, 1, &(length as u16).to_be_bytes());
    bytes.resize(length, 0);
    bytes
}

/// The length of a sheet goes with its winners: a byte fewer or more, or the length of other winners, is another.
fn seven_lengths() -> Vec<Edge> {
    let edge = |number, bytes| Edge::new("edge of 6, length", number, bytes);
    let mut edges = Vec::new();
    for (w, length) in LENGTHS.into_iter().enumerate() {
        let bids: Vec<u8> = (1..=w as u8).collect();
        let book = book_of(6, &bids);
        let input = each_wins(&bids).after(&book);
        edges.push(edge(6, input[..input.len() - 1].to_vec()));
        edges.push(edge(6, [&input[..], &[0]].concat()));
        for other in LENGTHS.into_iter().chain([length - 1, length + 1]) {
            let number = if other == length { 0 } else { 6 };
            let sheet = of_length(&input[book.len()..], other);
            edges.push(edge(number, [&book[..], &sheet].concat()));
        }
    }
    edges
}

/// Seven winners or more, which no book has, at each of the seven lengths and at the length that they would take.
fn winners_past_the_lengths() -> Vec<Edge> {
    let edge = |bytes| Edge::new("edge of 6, w past six", 6, bytes);
    let bids: Vec<u8> = (1..=7).collect();
    let book = book_of(6, &bids[..6]);
    let sheet = each_wins(&bids).bytes();
    let mut edges = vec![edge([&book[..], &sheet].concat())];
    for w in 7..=u8::MAX {
        for length in LENGTHS {
            let sheet = with(&of_length(&sheet, length), 3, &[w]);
            edges.push(edge([&book[..], &sheet].concat()));
        }
    }
    edges
}

/// q, s and G, where there is no winner.
fn ranges_without_winners() -> Vec<Edge> {
    let way = "edge of 7";
    let small = [(0, 7), (1, 0), (10_000, 0), (10_001, 7), (u32::MAX, 7)];
    let large = 1_000_000_000_000;
    let in_range = [(large, 0), (-large, 0), (-1, 0)];
    let past = [
        (large + 1, 7),
        (-large - 1, 7),
        (i64::MIN, 7),
        (i64::MAX, 7),
    ];
    let over_i = |sheet: S| sheet.after(&book_i());
    let of_g = |g| over_i(S { g, ..sheet_i() });
    let mut edges = each(way, &small, |q| over_i(S { q, ..sheet_i() }));
    edges.extend(each(way, &small, |s| over_i(S { s, ..sheet_i() })));
    edges.extend(each(way, &in_range, of_g));
    edges.extend(each(way, &past, of_g));
    edges
}

/// X, Z, R and T of either winner: the largest passes 7 and is refused later.
fn ranges_of_winners() -> Vec<Edge> {
    let large = 1_000_000_000_000;
    let a = x(20);
    let winners = [
        (10, x(10_000_000_000)),
        (7, x(10_000_000_001)),
        (7, x(u64::MAX)),
        (13, W { z: 10_000, ..a }),
        (7, W { z: 10_001, ..a }),
        (7, W { z: u32::MAX, ..a }),
        (14, W { r: large, ..a }),
        (7, W { r: large + 1, ..a }),
        (7, W { r: u64::MAX, ..a }),
        (14, W { t: large, ..a }),
        (7, W { t: large + 1, ..a }),
        (7, W { t: u64::MAX, ..a }),
    ];
    let edge = |number, winners: [W; 2]| {
        let winners = winners.to_vec();
        let sheet = S {
            winners,
            ..sheet_a()
        };
        Edge::new("edge of 7, winner", number, sheet.after(&book_a()))
    };
    let both = |(number, winner)| [edge(number, [winner, a]), edge(number, [a, winner])];
    winners.into_iter().flat_map(both).collect()
}

/// Y and U of each set. Y of a set with σ above 0 is too much for 13, U for 14.
fn ranges_of_sets() -> Vec<Edge> {
    let large = 1_000_000_000_000;
    let edge = |number, set, y, u| {
        let of_both = (3, 1, 0);
        let sets = match set {
            3 => vec![(3, y, u)],
            _ => vec![(set, y, u), of_both],
        };
        let sheet = S { sets, ..sheet_a() };
        Edge::new("edge of 7, set", number, sheet.after(&book_a()))
    };
    let of_set = |set| {
        [
            edge(13, set, 10_000, 0),
            edge(7, set, 10_001, 0),
            edge(7, set, u32::MAX, 0),
            edge(14, set, u32::from(set == 3), large),
            edge(7, set, 1, large + 1),
            edge(7, set, 1, u64::MAX),
        ]
    };
    (1..=3).flat_map(of_set).collect()
}

fn question_8() -> Vec<Edge> {
    let edge = |number, sheet: &S, book: &[u8]| Edge::new("edge of 8", number, sheet.after(book));
    let wrong = [
        [0, 2],
        [1, 0],
        [1, 4],
        [4, 1],
        [2, 1],
        [1, 1],
        [1, 3],
        [1, 255],
    ];
    let mut edges: Vec<Edge> = (wrong.iter())
        .map(|bids| edge(8, &plain(bids), &book_a()))
        .collect();
    // A withdrawn client.
    let withdrawn = with(&book_a(), 10, &[1]);
    edges.push(edge(8, &plain(&[3]), &withdrawn));
    edges.push(edge(9, &plain(&[3]), &book_a()));
    // Two bids of one client.
    let same_client = with(&book_a(), 18, &[1]);
    edges.push(edge(8, &plain(&[1, 2]), &same_client));
    // 7 comes before 8.
    let both = S {
        q: 0,
        ..plain(&[0, 0])
    };
    edges.push(edge(7, &both, &book_a()));
    edges
}

/// Supply 0, or as much as two bids ask for, or one less.
fn no_supply() -> Vec<Edge> {
    let edge = |number, sheet: &S, supply| {
        let book = with(&book_a(), 4, &[supply]);
        Edge::new("edge of 8, supply", number, sheet.after(&book))
    };
    vec![
        edge(8, &plain(&[1]), 0),
        edge(0, &sheet_i(), 0),
        edge(8, &plain(&[1, 2]), 1),
        edge(12, &plain(&[1, 2]), 2),
        edge(8, &plain(&[3]), 1),
        edge(9, &plain(&[3]), 2),
    ]
}
