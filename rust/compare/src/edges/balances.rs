//! Edges of questions 9 to 15, on the books and sheets of calls A, D and I.

use super::{with, Edge};
use generate::by_hand::{book_a, book_i, sheet_a, sheet_i, x, S, W};

pub fn edges() -> Vec<Edge> {
    let mut edges = question_9();
    edges.extend(question_10());
    edges.extend(question_11());
    edges.extend(questions_12_and_13());
    edges.extend(question_14());
    edges.extend(question_15());
    edges.extend(mispriced());
    edges
}

fn over_a(way: &'static str, number: u8, sheet: S) -> Edge {
    Edge::new(way, number, sheet.after(&book_a()))
}

fn question_9() -> Vec<Edge> {
    let any = S {
        q: 10_000,
        s: 3,
        g: -5,
        ..sheet_i()
    };
    let one = |bid| S {
        bids: vec![bid],
        winners: vec![x(0)],
        g: 0,
        sets: vec![],
        ..sheet_a()
    };
    vec![
        over_a("edge of 9", 9, sheet_i()),
        over_a("edge of 9", 9, one(1)),
        over_a("edge of 9", 9, one(3)),
        // With no winner and nothing to win, any q, s and G in range will do.
        Edge::new("edge of 9", 0, any.after(&book_i())),
    ]
}

/// The book of call D: ρ is 40 and 5, σ 15 each and together.
fn book_d() -> Vec<u8> {
    with(&with(&book_a(), 6, &[20]), 23, &[25])
}

fn question_10() -> Vec<Edge> {
    let d = |number, first, second| {
        let winners = vec![x(first), W { r: 5, ..x(second) }];
        let sheet = S {
            winners,
            g: 5,
            ..sheet_a()
        };
        Edge::new("edge of 10", number, sheet.after(&book_d()))
    };
    vec![
        d(0, 10, 5),
        d(10, 9, 6),
        d(10, 41, 0),
        d(11, 40, 0),
        d(13, 9, 5),
    ]
}

/// In call A σ is 40 for either winner and for both; ρ is 50 and 40.
fn question_11() -> Vec<Edge> {
    let a = |number, first, second| {
        let winners = vec![x(first), x(second)];
        over_a(
            "edge of 11",
            number,
            S {
                winners,
                ..sheet_a()
            },
        )
    };
    vec![
        a(0, 20, 20),
        a(11, 21, 20),
        a(11, 20, 21),
        a(14, 40, 0),
        a(14, 0, 40),
        a(11, 41, 0),
        a(13, 39, 0),
        a(10, 0, 41),
        a(13, 0, 0),
    ]
}

fn questions_12_and_13() -> Vec<Edge> {
    let sets = |number, sets: &[(usize, u32, u64)]| {
        let sets = sets.to_vec();
        over_a("edge of 12 and 13", number, S { sets, ..sheet_a() })
    };
    let s = |number, s| over_a("edge of 12 and 13", number, S { s, ..sheet_a() });
    let z = |number, first, second| {
        let winners = vec![W { z: first, ..x(20) }, W { z: second, ..x(20) }];
        let sets = vec![];
        over_a(
            "edge of 12 and 13",
            number,
            S {
                winners,
                sets,
                ..sheet_a()
            },
        )
    };
    vec![
        sets(12, &[]),
        sets(12, &[(1, 1, 0)]),
        sets(12, &[(2, 1, 0)]),
        sets(13, &[(1, 1, 0), (2, 1, 0)]),
        sets(13, &[(3, 2, 0)]),
        s(0, 1),
        s(12, 2),
        z(12, 1, 0),
        z(12, 0, 1),
        z(13, 1, 1),
    ]
}

/// U of both winners may stand in place of G, since their X sum meets σ exactly.
fn question_14() -> Vec<Edge> {
    let a = |number, g, u| {
        let sets = vec![(3, 1, u)];
        over_a(
            "edge of 14",
            number,
            S {
                g,
                sets,
                ..sheet_a()
            },
        )
    };
    vec![
        a(0, 20, 0),
        a(0, 0, 20),
        a(0, -1_000, 1_020),
        a(0, -999_999_999_980, 1_000_000_000_000),
        a(14, 19, 0),
        a(14, 21, 0),
        a(14, 20, 1),
        a(14, -20, 0),
    ]
}

/// U of sets that are not met exactly, R above reserve, T above zero.
fn question_15() -> Vec<Edge> {
    let edge = |number, sheet| over_a("edge of 15", number, sheet);
    let singles = vec![(1, 0, 5), (2, 0, 5), (3, 1, 0)];
    let winners = |g, winner| S {
        g,
        winners: vec![winner, winner],
        ..sheet_a()
    };
    let (r, t) = (W { r: 5, ..x(20) }, W { t: 5, ..x(20) });
    let both = W {
        r: 1,
        t: 1,
        ..x(20)
    };
    vec![
        edge(
            15,
            S {
                g: 15,
                sets: singles,
                ..sheet_a()
            },
        ),
        edge(15, winners(15, r)),
        edge(15, winners(25, t)),
        edge(15, winners(20, both)),
        // All to the first winner: σ of the second alone is not met.
        edge(15, all_to_first(x(0), 0, vec![(2, 0, 40), (3, 1, 0)])),
        edge(14, all_to_first(W { t: 5, ..x(0) }, 45, vec![(3, 1, 0)])),
    ]
}

fn all_to_first(second: W, g: i64, sets: Vec<(usize, u32, u64)>) -> S {
    let winners = vec![x(40), second];
    S {
        winners,
        g,
        sets,
        ..sheet_a()
    }
}

/// Distances taken from the lesser of ρ and σ, in halves, as they are and mended with R.
fn mispriced() -> Vec<Edge> {
    let sheet = |second| S {
        q: 2,
        winners: vec![x(25), second],
        g: 5,
        ..sheet_a()
    };
    let edge = |number, sheet: S| Edge::new("edge of 14, capped", number, sheet.after(&book_d()));
    let mended = W { r: 20, ..x(5) };
    vec![edge(14, sheet(x(5))), edge(15, sheet(mended))]
}
