//! Faults in questions 6 to 8.

use super::{gate, hand, same_in_gate, Group};

pub const GROUPS: &[Group] = &[
    Group {
        topic: "question 6",
        file: "questions",
        faults: &[
            hand("version == 1 &&", ""),
            hand("w <= n && length", "w <= 6 && length"),
            hand("w <= n && length", "w < n && length"),
            gate("length == rest.len()", "length <= rest.len()"),
            gate("length == sheet_length(w)", "length == sheet_length(w + 1)"),
            gate("length == sheet_length(w)", "length == sheet_length(w) + usize::from(w == 4)"),
            gate("length == sheet_length(w)", "length == sheet_length(w) - usize::from(w == 5)"),
            gate("length == sheet_length(w)", "length == sheet_length(w) + 12"),
            gate("length == sheet_length(w)", "length >= sheet_length(w)"),
            gate("length == sheet_length(w)", "length == sheet_length(n)"),
        ],
    },
    Group {
        topic: "question 7",
        file: "questions",
        faults: &[
            hand("(1..=MOST_SMALL).contains(&sheet.q)", "(0..=MOST_SMALL).contains(&sheet.q)"),
            gate("MOST_SMALL: i128 = 10_000", "MOST_SMALL: i128 = 10_001"),
            hand("MOST_SMALL: i128 = 10_000", "MOST_SMALL: i128 = 9_999"),
            hand("MOST_NUMERATOR: i128 = 10_000_000_000", "MOST_NUMERATOR: i128 = 10_000_000_001"),
            hand("MOST_NUMERATOR: i128 = 10_000_000_000", "MOST_NUMERATOR: i128 = 9_999_999_999"),
            hand("MOST_LARGE: i128 = 1_000_000_000_000", "MOST_LARGE: i128 = 1_000_000_000_001"),
            hand("MOST_LARGE: i128 = 1_000_000_000_000", "MOST_LARGE: i128 = 999_999_999_999"),
            gate("(-MOST_LARGE..=MOST_LARGE)", "(-MOST_LARGE-1..=MOST_LARGE)"),
            hand("(-MOST_LARGE..=MOST_LARGE)", "(-MOST_LARGE..=MOST_LARGE+1)"),
            hand("(-MOST_LARGE..=MOST_LARGE)", "(-MOST_LARGE+1..=MOST_LARGE)"),
            hand("winner.z <= MOST_SMALL", "true"),
            hand("winner.r <= MOST_LARGE", "true"),
            hand("winner.t <= MOST_LARGE", "true"),
            hand("set.y <= MOST_SMALL", "true"),
            hand("set.u <= MOST_LARGE", "true"),
            hand("sheet.winners.iter().all(winner_in_range)", "sheet.winners.iter().take(5).all(winner_in_range)"),
            gate("sheet.sets.iter().all", "sheet.sets.iter().take(63).all"),
            hand("(1..=MOST_SMALL).contains(&sheet.s)", "(0..=MOST_SMALL).contains(&sheet.s)"),
        ],
    },
    Group {
        topic: "question 8",
        file: "questions",
        faults: &[
            same_in_gate(
                "client(pair[0]) < client(pair[1])",
                "client(pair[0]) <= client(pair[1])",
                "two bids of one client are no combination",
            ),
            gate("client(pair[0]) < client(pair[1])", "true"),
            hand("is_combination(book, &sheet.bids()) &&", "sheet.bids().iter().all(|&b| book.bid(b).is_some()) &&"),
        ],
    },
];
