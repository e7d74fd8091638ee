//! A certifier that leaves out one winner or one set in one question must be found out: for each
//! winner and each set there is an input that only that part of the question refuses.

use compare::{fields, multipliers, Example};
use generate::planted::{challenged_book, planted_book};
use generate::Rng;
use reference::questions::*;
use reference::{Sheet, Weights};
use std::collections::BTreeMap;

/// How often one part alone refused: by question and w, a count for each winner or set.
#[derive(Default)]
struct Reached(BTreeMap<(&'static str, usize), Vec<u64>>);

/// A sheet that has come as far as question 10, and what it is weighed against.
struct Weighed<'a> {
    sheet: &'a Sheet,
    weights: &'a Weights,
}

impl Weighed<'_> {
    /// The winners that a part of a question refuses.
    fn winners(&self, passes: impl Fn(usize) -> bool) -> Vec<usize> {
        (0..self.sheet.w()).filter(|&j| !passes(j)).collect()
    }

    /// The sets that it refuses.
    fn sets(&self, passes: impl Fn(usize) -> bool) -> Vec<usize> {
        let sets = self.sheet.set_numbers();
        sets.filter(|&set| !passes(set)).collect()
    }
}

impl Reached {
    fn note(&mut self, question: &'static str, w: usize, size: usize, refused: &[usize]) {
        let counts = self.0.entry((question, w)).or_insert_with(|| vec![0; size]);
        if let &[part] = refused {
            counts[part] += 1;
        }
    }

    /// Notes the question that refuses the sheet and those before it, from 10 on.
    fn note_sheet(&mut self, sheet: &Sheet, weights: &Weights) {
        let weighed = Weighed { sheet, weights };
        if question_7(sheet) && self.bounds(&weighed) && self.balances(&weighed) {
            self.slack(&weighed);
        }
    }

    /// Questions 10 and 11.
    fn bounds(&mut self, weighed: &Weighed) -> bool {
        let &Weighed { sheet, weights } = weighed;
        let (w, sets) = (sheet.w(), sheet.sets.len());
        let refused = weighed.winners(|j| within_reserve(sheet, weights, j));
        self.note("10", w, w, &refused);
        if !refused.is_empty() {
            return false;
        }
        let refused = weighed.sets(|set| within_sigma(sheet, weights, set));
        self.note("11", w, sets, &refused);
        refused.is_empty()
    }

    /// Questions 12 to 14.
    fn balances(&mut self, weighed: &Weighed) -> bool {
        let &Weighed { sheet, weights } = weighed;
        let w = sheet.w();
        let refused = weighed.winners(|j| is_covered(sheet, j));
        self.note("12", w, w, &refused);
        if !refused.is_empty() || !question_13(sheet, weights) {
            return false;
        }
        let refused = weighed.winners(|j| is_balanced(sheet, weights, j));
        self.note("14", w, w, &refused);
        refused.is_empty()
    }

    /// Question 15, of which only one part may refuse.
    fn slack(&mut self, weighed: &Weighed) {
        let &Weighed { sheet, weights } = weighed;
        let (w, sets) = (sheet.w(), sheet.sets.len());
        let u = weighed.sets(|set| u_may_stand(sheet, weights, set));
        let r = weighed.winners(|j| r_may_stand(sheet, weights, j));
        let t = weighed.winners(|j| t_may_stand(sheet, j));
        let all = u.len() + r.len() + t.len();
        for (question, size, own) in [("15 U", sets, &u), ("15 R", w, &r), ("15 T", w, &t)] {
            let only: &[usize] = if own.len() == all { own } else { &[] };
            self.note(question, w, size, only);
        }
    }

    /// All sheets that come from an example by changed numbers.
    fn note_example(&mut self, rng: &mut Rng, example: &Example) {
        let start = example.book.length();
        let changed = multipliers::changed(rng, example);
        for input in changed.iter().chain(&fields::of_sheet(example)) {
            let sheet = Sheet::read(&input.bytes[start..]).expect("only numbers were changed");
            self.note_sheet(&sheet, &example.weights);
        }
    }
}

#[test]
fn each_winner_and_each_set_decides_some_input() {
    let mut rng = Rng::new(7);
    let mut reached = Reached::default();
    for _ in 0..1_200 {
        let book = planted_book(&mut rng, 3);
        let example = Example::of(&mut rng, book);
        reached.note_example(&mut rng, &example);
    }
    // Six winners have the most parts and need the most examples.
    for round in 0..434 {
        let book = challenged_book(&mut rng, round % 62 + 1);
        let example = Example::of(&mut rng, book);
        reached.note_example(&mut rng, &example);
    }
    for (&(question, w), counts) in &reached.0 {
        assert_all_decide(question, w, counts);
    }
}

fn assert_all_decide(question: &str, w: usize, counts: &[u64]) {
    println!("{question} w {w}: {counts:?}");
    let by_set = counts.len() == 1 << w;
    let missing: Vec<usize> = (usize::from(by_set)..counts.len())
        .filter(|&part| counts[part] == 0)
        .collect();
    // With six winners no client is left over, so that no discounts can exceed σ of them all.
    let expected = match (question, w) {
        ("11", 6) => vec![63],
        _ => vec![],
    };
    assert_eq!(missing, expected, "question {question}, w {w}");
}
