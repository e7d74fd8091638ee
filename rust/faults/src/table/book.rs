//! Faults in questions 1 to 5.

use super::{gate, hand, Group};

pub const GROUPS: &[Group] = &[
    Group {
        topic: "question 1",
        file: "questions",
        faults: &[
            gate("input.len() >= 3", "input.len() >= 2"),
            hand("input[0] == 1", "input[0] <= 1"),
            hand("input[0] == 1", "input[0] >= 1"),
        ],
    },
    Group {
        topic: "question 2",
        file: "questions",
        faults: &[
            hand("(1..=4)", "(1..=5)"),
            hand("(1..=4)", "(0..=4)"),
            hand("(1..=4)", "(1..=3)"),
            hand("(1..=6)", "(1..=7)"),
            hand("(1..=6)", "(0..=6)"),
            hand("(1..=6)", "(1..=5)"),
            gate("counts.m <= 48", "counts.m <= 49"),
            hand("counts.m <= 48", "counts.m <= 47"),
            gate("length == counts", "length >= counts"),
        ],
    },
    Group {
        topic: "question 3",
        file: "questions",
        faults: &[
            gate("MOST_HOURS: i128 = 200", "MOST_HOURS: i128 = 201"),
            hand("MOST_HOURS: i128 = 200", "MOST_HOURS: i128 = 199"),
            hand("MOST_RESERVE: i128 = 10_000", "MOST_RESERVE: i128 = 10_001"),
            hand("MOST_RESERVE: i128 = 10_000", "MOST_RESERVE: i128 = 9_999"),
            hand("(0..=1).contains(status)", "(0..=2).contains(status)"),
            hand("(0..=1).contains(status)", "(0..=0).contains(status)"),
            hand("book.supply.iter().all", "book.supply.iter().take(1).all"),
            gate("book.status.iter().all", "book.status.iter().take(5).all"),
        ],
    },
    Group {
        topic: "question 4",
        file: "questions",
        faults: &[
            gate("(1..=n).contains(&bid.client)", "(1..=n + 1).contains(&bid.client)"),
            hand("bid.hours.iter().any(|&hours| hours >= 1)", "true"),
            gate("bid.hours.iter().any(|&hours| hours >= 1)", "bid.hours[0] >= 1"),
            hand("(1..=MOST_AMOUNT)", "(0..=MOST_AMOUNT)"),
            hand("MOST_AMOUNT: i128 = 1_000_000", "MOST_AMOUNT: i128 = 1_000_001"),
            hand("MOST_AMOUNT: i128 = 1_000_000", "MOST_AMOUNT: i128 = 999_999"),
            gate("CLIENT: usize = 8", "CLIENT: usize = 9"),
            hand("CLIENT: usize = 8", "CLIENT: usize = 7"),
            gate(".all(|bid| bid_is_in_order(bid, n))", ".filter(|b| book.is_standing(b.client)).all(|bid| bid_is_in_order(bid, n))"),
            hand("(1..=n).all(|client| bids_of", "(1..=n).filter(|&c| book.is_standing(c)).all(|client| bids_of"),
        ],
    },
    Group {
        topic: "question 5",
        file: "questions",
        faults: &[
            gate("bid.amount >= book.reserves(bid)", "bid.amount > book.reserves(bid)"),
            gate("bid.amount >= book.reserves(bid)", "bid.amount >= book.reserves(bid) || !book.is_standing(bid.client)"),
        ],
    },
];
