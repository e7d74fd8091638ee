//! Faults in question 16, and beside the questions: what a combination is, σ and ρ, the answers, the order of the questions, the
//! layout.

use super::{gate, hand, same, Group};

pub const GROUPS: &[Group] = &[
    Group {
        topic: "question 16",
        file: "questions",
        faults: &[
            gate(">> book.status.len() == 0", ">> (book.status.len() + 1) == 0"),
            hand(">> book.status.len() == 0", ">> 6 == 0"),
            same("usize::from(discard) >>", "usize::from(discard & !1) >>", "client 1 is always there"),
        ],
    },
    Group {
        topic: "combinations",
        file: "combinations",
        faults: &[
            gate("&& all_standing(book, bids)", ""),
            hand("&& hours_fit(book, bids)", ""),
            gate("|set| set & discarded == 0", "|set| set & discarded != discarded || discarded == 0"),
            gate("<= book.supply[kind]", "< book.supply[kind]"),
        ],
    },
    Group {
        topic: "weights",
        file: "weights",
        faults: &[
            gate("bid.amount - book.reserves(bid)", "bid.amount"),
            gate(
                "v - values.greatest_without(clients_of_set(book, winners, set))",
                "(0..winners.len()).filter(|&k| holds(set, k))\
                    .map(|k| v - values.greatest_without(clients_of_set(book, winners, 1 << k))).sum()",
            ),
        ],
    },
    Group {
        topic: "answers",
        file: "answer",
        faults: &[
            gate("- winner.x)", ")"),
            gate("q: sheet.q as u32", "q: 1"),
            hand("w: sheet.w() as u8", "w: 2"),
            gate("{client} {bid} {price}", "{bid} {client} {price}"),
        ],
    },
    Group {
        topic: "order",
        file: "answer",
        faults: &[
            hand(
                "ask(4, question_4(&book))?;\n    ask(5, question_5(&book))?;",
                "ask(5, question_5(&book))?;\n    ask(4, question_4(&book))?;",
            ),
            hand(
                "ask(7, question_7(&sheet))?;\n    ask(8, question_8(book, &sheet))?;",
                "ask(8, question_8(book, &sheet))?;\n    ask(7, question_7(&sheet))?;",
            ),
            hand(
                "ask(9, question_9(book, sheet, weights))?;\n    ask(10, question_10(sheet, weights))?;",
                "ask(10, question_10(sheet, weights))?;\n    ask(9, question_9(book, sheet, weights))?;",
            ),
            gate(
                "ask(10, question_10(sheet, weights))?;\n    ask(11, question_11(sheet, weights))?;",
                "ask(11, question_11(sheet, weights))?;\n    ask(10, question_10(sheet, weights))?;",
            ),
            hand(
                "ask(12, question_12(sheet))?;\n    ask(13, question_13(sheet, weights))?;",
                "ask(13, question_13(sheet, weights))?;\n    ask(12, question_12(sheet))?;",
            ),
            hand(
                "ask(14, question_14(sheet, weights))?;\n    ask(15, question_15(sheet, weights))",
                "ask(15, question_15(sheet, weights))?;\n    ask(14, question_14(sheet, weights))",
            ),
        ],
    },
    Group {
        topic: "layout",
        file: "bytes",
        faults: &[
            gate("if n < 1 << 63 { n }", "if true { n }"),
        ],
    },
    Group {
        topic: "layout",
        file: "sheet",
        faults: &[
            hand(
                "winner.z = reader.number(4)?;\n            winner.r = reader.number(8)?;",
                "winner.r = reader.number(8)?;\n            winner.z = reader.number(4)?;",
            ),
        ],
    },
];
