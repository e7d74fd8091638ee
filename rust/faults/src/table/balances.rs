//! Faults in questions 9 to 15.

use super::{gate, hand, same_in_gate, Group};

pub const GROUPS: &[Group] = &[
    Group {
        topic: "question 9",
        file: "questions",
        faults: &[
            gate("value(book, &sheet.bids()) == weights.v", "true"),
        ],
    },
    Group {
        topic: "question 10",
        file: "questions",
        faults: &[
            hand("sheet.winners[j].x <= sheet.q * weights.rho[j]", "true"),
            hand("sheet.winners[j].x <= sheet.q * weights.rho[j]", "sheet.winners[j].x < sheet.q * weights.rho[j]"),
            hand("sheet.winners[j].x <= sheet.q * weights.rho[j]", "j > 0 || sheet.winners[j].x <= sheet.q * weights.rho[j]"),
            gate("sheet.winners[j].x <= sheet.q * weights.rho[j]", "j == 5 || sheet.winners[j].x <= sheet.q * weights.rho[j]"),
        ],
    },
    Group {
        topic: "question 11",
        file: "questions",
        faults: &[
            gate("sheet.x_sum(set) <=", "!(set == 1) || sheet.x_sum(set) <="),
            hand("sheet.x_sum(set) <=", "!(set.is_power_of_two()) || sheet.x_sum(set) <="),
            hand("sheet.x_sum(set) <=", "!(set + 1 == sheet.sets.len()) || sheet.x_sum(set) <="),
            hand("sheet.x_sum(set) <=", "!(set.is_power_of_two() || set + 1 == sheet.sets.len()) || sheet.x_sum(set) <="),
            gate("sheet.x_sum(set) <=", "!(sheet.sets[set].y > 0 || sheet.sets[set].u > 0) || sheet.x_sum(set) <="),
            hand("sheet.x_sum(set) <=", "!(set != 5) || sheet.x_sum(set) <="),
            hand("sheet.x_sum(set) <=", "!(set != 3) || sheet.x_sum(set) <="),
            hand("sheet.x_sum(set) <=", "!(set < 32) || sheet.x_sum(set) <="),
            gate("sheet.x_sum(set) <=", "!(set != 62) || sheet.x_sum(set) <="),
            hand("sheet.x_sum(set) <=", "!(set.count_ones() != 3) || sheet.x_sum(set) <="),
            hand("sheet.x_sum(set) <=", "!(set.count_ones() != 4) || sheet.x_sum(set) <="),
            hand("sheet.x_sum(set) <=", "!(set.count_ones() != 5) || sheet.x_sum(set) <="),
            gate("sheet.x_sum(set) <=", "sheet.x_sum(set) <"),
        ],
    },
    Group {
        topic: "question 12",
        file: "questions",
        faults: &[
            gate("sheet.winners[j].z + of_sets >= sheet.s", "sheet.winners[j].z + of_sets > sheet.s"),
            hand("sheet.winners[j].z + of_sets >= sheet.s", "sheet.winners[j].z + of_sets == sheet.s"),
            hand("sheet.winners[j].z + of_sets", "of_sets"),
            hand("sheet.winners[j].z + of_sets >= sheet.s", "sheet.winners[j].z + of_sets >= sheet.s || j > 0"),
            gate("sheet.winners[j].z + of_sets >= sheet.s", "sheet.winners[j].z + of_sets >= sheet.s || j == 0"),
            hand("sheet.winners[j].z + of_sets >= sheet.s", "sheet.winners[j].z + of_sets >= sheet.s || j == 5"),
            hand("sheet.winners[j].z + of_sets >= sheet.s", "sheet.winners[j].z + of_sets >= 1"),
        ],
    },
    Group {
        topic: "question 13",
        file: "questions",
        faults: &[
            same_in_gate(
                "sheet.q * (of_sets + of_winners) == sheet.s * discounts",
                "sheet.q * (of_sets + of_winners) <= sheet.s * discounts",
                "after 10 to 12 the left side is never the smaller",
            ),
            gate("sheet.q * (of_sets + of_winners) == sheet.s * discounts", "sheet.q * (of_sets + of_winners) >= sheet.s * discounts"),
            hand("sheet.q * (of_sets + of_winners) == sheet.s * discounts", "(of_sets + of_winners) == sheet.s * discounts"),
            hand("sheet.q * (of_sets + of_winners) == sheet.s * discounts", "sheet.q * (of_sets + of_winners) == discounts"),
            gate("sheet.q * (of_sets + of_winners)", "sheet.q * (of_sets)"),
            hand("sheet.q * (of_sets + of_winners)", "sheet.q * (of_winners)"),
        ],
    },
    Group {
        topic: "question 14",
        file: "questions",
        faults: &[
            gate(
                "let distance = sheet.q * weights.sigma_of_one(j)",
                "let distance = sheet.q * weights.sigma_of_one(j).min(weights.rho[j])",
            ),
            hand("distance == sheet.g", "distance >= sheet.g"),
            hand("distance == sheet.g", "distance <= sheet.g"),
            hand("+ winner.r - winner.t", "- winner.t"),
            hand("+ winner.r - winner.t", "+ winner.r"),
            gate("+ winner.r - winner.t", "+ winner.r + winner.t"),
            hand("distance == sheet.g", "j > 0 || distance == sheet.g"),
            hand("distance == sheet.g", "j == 0 || distance == sheet.g"),
            gate("distance == sheet.g", "j == 5 || distance == sheet.g"),
            hand("distance == sheet.g", "distance == sheet.g.abs()"),
        ],
    },
    Group {
        topic: "question 15",
        file: "questions",
        faults: &[
            hand("sheet.sets[set].u == 0 ||", "true ||"),
            hand("sheet.sets[set].u == 0 ||", "set > 1 || sheet.sets[set].u == 0 ||"),
            hand("sheet.sets[set].u == 0 ||", "set == 1 || sheet.sets[set].u == 0 ||"),
            gate("sheet.sets[set].u == 0 ||", "set > 31 || sheet.sets[set].u == 0 ||"),
            hand("sheet.sets[set].u == 0 ||", "set == 63 || sheet.sets[set].u == 0 ||"),
            hand("sheet.sets[set].u == 0 ||", "set.count_ones() == 2 || sheet.sets[set].u == 0 ||"),
            hand("sheet.winners[j].r == 0 ||", "true ||"),
            gate("sheet.winners[j].t == 0 ||", "true ||"),
            hand("sheet.winners[j].r == 0 ||", "j > 0 || sheet.winners[j].r == 0 ||"),
            hand("sheet.winners[j].t == 0 ||", "j > 0 || sheet.winners[j].t == 0 ||"),
            gate("sheet.winners[j].r == 0 ||", "j == 0 || sheet.winners[j].r == 0 ||"),
            hand("sheet.winners[j].t == 0 ||", "j == 0 || sheet.winners[j].t == 0 ||"),
            hand("sheet.winners[j].r == 0 ||", "j == 5 || sheet.winners[j].r == 0 ||"),
            hand("sheet.winners[j].t == 0 ||", "j == 5 || sheet.winners[j].t == 0 ||"),
        ],
    },
];
