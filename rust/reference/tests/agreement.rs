//! What docs/FORMAT.md lets one expect, tried out on random books.

use generate::{small_book, winning_combinations, Rng};
use reference::admissible::none_worth_more;
use reference::combinations::{all_combinations, is_combination, Values};
use reference::questions::{question_10, question_11};
use reference::{admissible, Bid, Book, Discounts, Multipliers, Sheet, Weights, Winner};

/// A sheet with these discounts and no multipliers.
fn sheet_with(winners: &[usize], discounts: &Discounts) -> Sheet {
    let x = discounts.x.iter().copied();
    Sheet {
        q: discounts.q,
        s: 1,
        winners: (winners.iter().zip(x))
            .map(|(&bid, x)| Winner {
                bid,
                x,
                ..Winner::default()
            })
            .collect(),
        g: 0,
        sets: vec![Multipliers::default(); 1 << winners.len()],
    }
}

/// Discounts from 0 to ρ(j) over a random q, some of them at either end, mostly near their bounds.
fn random_discounts(rng: &mut Rng, weights: &Weights) -> (i128, Vec<i128>) {
    let q = rng.range(1, 4);
    let share = rng.range(1, 4);
    let x = (0..weights.rho.len()).map(|j| {
        let rho = weights.rho[j];
        let most = match rng.range(0, 4) {
            0 => rho,
            1 => 0,
            _ => rho.min(weights.sigma_of_one(j) / share + 1),
        };
        let least = if rng.chance(30) { q * most } else { 0 };
        rng.range(least, q * most)
    });
    let x = x.collect();
    (q, x)
}

#[test]
fn question_11_agrees_with_lowered_bids() {
    let mut rng = Rng::new(11);
    let mut yes = [0; 7];
    let mut no = [0; 7];
    for _ in 0..20_000 {
        let book = small_book(&mut rng);
        let winners = rng.pick(&winning_combinations(&book)).clone();
        let weights = Weights::of(&book, &winners);
        for _ in 0..6 {
            let (q, x) = random_discounts(&mut rng, &weights);
            let discounts = Discounts { q, x: &x };
            let sheet = sheet_with(&winners, &discounts);
            assert!(question_10(&sheet, &weights));
            let within = question_11(&sheet, &weights);
            let same = none_worth_more(&book, &winners, &discounts);
            assert_eq!(within, same, "{book:?} {winners:?} {q} {x:?} {weights:?}");
            assert_eq!(within, admissible(&book, &winners, &discounts));
            let count = if within { &mut yes } else { &mut no };
            count[winners.len()] += 1;
        }
    }
    println!("by w: admissible {yes:?}, not {no:?}");
    assert!((1..7).all(|w| yes[w] >= 50), "{yes:?}");
    assert!((1..7).all(|w| no[w] >= 50), "{no:?}");
}

/// Greatest value by the recursion on the clients left.
fn by_recursion(book: &Book, discarded: usize, client: usize, left: &[i128]) -> i128 {
    if client > book.status.len() {
        return 0;
    }
    let mut best = by_recursion(book, discarded, client + 1, left);
    if book.is_standing(client) && (discarded >> (client - 1)) & 1 == 0 {
        for bid in book.bids.iter().filter(|bid| bid.client == client) {
            if bid.hours.iter().zip(left).all(|(h, l)| h <= l) {
                let after: Vec<i128> = bid.hours.iter().zip(left).map(|(h, l)| l - h).collect();
                best = best.max(bid.amount + by_recursion(book, discarded, client + 1, &after));
            }
        }
    }
    best
}

#[test]
fn the_recursion_gives_the_maximum_over_all_combinations() {
    let mut rng = Rng::new(12);
    for _ in 0..2_000 {
        let book = small_book(&mut rng);
        let values = Values::of(&book);
        for discarded in 0..1 << book.status.len() {
            let recursive = by_recursion(&book, discarded, 1, &book.supply);
            assert_eq!(values.greatest_without(discarded), recursive, "{book:?}");
        }
    }
}

#[test]
fn every_combination_is_listed_once() {
    // Against all lists of bids by rising client that can be made at all.
    let mut rng = Rng::new(13);
    for _ in 0..500 {
        let mut book = small_book(&mut rng);
        book.bids.truncate(8);
        let mut listed = all_combinations(&book);
        let mut expected: Vec<Vec<usize>> = (0..1_usize << book.bids.len())
            .map(|chosen| (1..=book.bids.len()).filter(move |b| (chosen >> (b - 1)) & 1 == 1))
            .map(|bids| bids.collect::<Vec<usize>>())
            .filter(|bids| is_combination(&book, bids))
            .collect();
        for list in &mut listed {
            list.sort();
        }
        listed.sort();
        expected.sort();
        assert_eq!(listed, expected);
    }
}

#[test]
fn discounts_below_zero_are_not_admissible() {
    // Three kinds with one hour each, 50 for each of them; 90 for the first two and 90 for the
    // first and third. The best discounts total 20. With -30, 40 and 40 no combination is worth
    // more than the winners, but one discount is below zero.
    let bid = |client, hours: [i128; 3], amount| Bid {
        client,
        hours: hours.to_vec(),
        amount,
    };
    let book = Book {
        supply: vec![1; 3],
        reserve: vec![0; 3],
        status: vec![0; 5],
        bids: vec![
            bid(1, [1, 0, 0], 50),
            bid(2, [0, 1, 0], 50),
            bid(3, [0, 0, 1], 50),
            bid(4, [1, 1, 0], 90),
            bid(5, [1, 0, 1], 90),
        ],
    };
    let x = |x| Discounts { q: 1, x };
    assert!(none_worth_more(&book, &[1, 2, 3], &x(&[-30, 40, 40])));
    assert!(!admissible(&book, &[1, 2, 3], &x(&[-30, 40, 40])));
    assert!(admissible(&book, &[1, 2, 3], &x(&[0, 10, 10])));
    assert!(!admissible(&book, &[1, 2, 3], &x(&[0, 10, 11])));
}
