//! The discounts of accepted calls are admissible by the definition, and question 11 says the same of
//! any discounts within the reserves.

use crate::pricing::Pricing;
use compare::Example;
use generate::full::KINDS;
use generate::Rng;
use reference::admissible::none_worth_more;
use reference::questions::{question_10, question_11};
use reference::sheet::holds;
use reference::{admissible, Discounts, Sheet};

#[test]
fn own_discounts_are_admissible() {
    let mut rng = Rng::new(21);
    (0..4_000).for_each(|_| assert_admissible(&Example::small(&mut rng)));
    (0..60).for_each(|_| assert_admissible(&Example::any(&mut rng)));
    for kind in &KINDS {
        assert_admissible(&Example::of(&mut rng, kind.book(21)));
    }
}

fn assert_admissible(example: &Example) {
    let pricing = Pricing::of(example);
    assert!(pricing.admits(&pricing.x), "{:?}", pricing.book);
}

/// Discounts within the reserves, near σ of some set: its sum is σ, one less or one more, as far as
/// its members' reserves allow; the other winners have nothing, or what the sheet gives them.
fn near_a_bound(rng: &mut Rng, example: &Example) -> Sheet {
    let mut sheet = example.sheet.clone();
    let set = rng.index(1, sheet.sets.len() - 1);
    let mut left = sheet.q * example.weights.sigma[set] + rng.range(-1, 1);
    let keep = rng.chance(50);
    for (k, winner) in sheet.winners.iter_mut().enumerate() {
        winner.x = if keep && !holds(set, k) { winner.x } else { 0 };
    }
    // Once round for a part each, and once for what is left.
    let mut order: Vec<usize> = (0..sheet.w()).filter(|&k| holds(set, k)).collect();
    rng.shuffle(&mut order);
    for (turn, &k) in order.iter().chain(&order).enumerate() {
        let reserve = sheet.q * example.weights.rho[k];
        let most = left.clamp(0, reserve - sheet.winners[k].x);
        let least = if turn < order.len() { most / 2 } else { most };
        let more = rng.range(least, most);
        sheet.winners[k].x += more;
        left -= more;
    }
    sheet
}

/// By w: how often question 11 said yes with some set met exactly, and no where each set that was
/// broken was broken by one.
#[derive(Debug, Default)]
struct Edges {
    met: [u64; 7],
    one_over: [u64; 7],
}

impl Edges {
    /// Tries discounts near bounds for the winners of one example, if it has any.
    fn try_some(&mut self, rng: &mut Rng, example: fn(&mut Rng) -> Example, count: usize) {
        let example = example(rng);
        let count = if example.sheet.w() > 0 { count } else { 0 };
        for _ in 0..count {
            let sheet = near_a_bound(rng, &example);
            assert!(question_10(&sheet, &example.weights));
            self.note(&example, &sheet);
        }
    }

    fn note(&mut self, example: &Example, sheet: &Sheet) {
        let yes = agrees(example, sheet);
        let over = |set: usize| sheet.x_sum(set) - sheet.q * example.weights.sigma[set];
        let most = sheet.set_numbers().map(over).max();
        self.met[sheet.w()] += u64::from(yes && most == Some(0));
        self.one_over[sheet.w()] += u64::from(!yes && most == Some(1));
    }
}

#[test]
fn question_11_agrees_with_every_combination_of_lowered_bids() {
    let mut rng = Rng::new(22);
    let mut edges = Edges::default();
    (0..8_000).for_each(|_| edges.try_some(&mut rng, Example::small, 10));
    println!("{edges:?}");
    assert!((1..7).all(|w| edges.met[w] >= 500), "{edges:?}");
    assert!((1..7).all(|w| edges.one_over[w] >= 200), "{edges:?}");
}

#[test]
fn question_11_agrees_over_larger_books() {
    let mut rng = Rng::new(23);
    let mut edges = Edges::default();
    (0..400).for_each(|_| edges.try_some(&mut rng, Example::any, 4));
    println!("{edges:?}");
    assert!(edges.met.iter().sum::<u64>() >= 300, "{edges:?}");
    assert!(edges.one_over.iter().sum::<u64>() >= 100, "{edges:?}");
}

/// Question 11's answer, which must be that of the definition.
fn agrees(example: &Example, sheet: &Sheet) -> bool {
    let x: Vec<i128> = sheet.winners.iter().map(|winner| winner.x).collect();
    let discounts = Discounts { q: sheet.q, x: &x };
    let yes = question_11(sheet, &example.weights);
    let none = none_worth_more(&example.book, &sheet.bids(), &discounts);
    assert_eq!(yes, none, "{:?} {sheet:?}", example.book);
    assert_eq!(yes, admissible(&example.book, &sheet.bids(), &discounts));
    yes
}
