//! Demand 3: no other admissible discounts do as well as those of an accepted call.

use crate::others::{corner, other};
use crate::pricing::Pricing;
use compare::Example;
use generate::fraction::{Fraction, ZERO};
use generate::{small_book, Rng};
use std::cmp::Ordering;

/// Of other admissible discounts: how many there were, how many had the same sum, how many did better.
#[derive(Clone, Copy, Debug, Default)]
struct Seen {
    admissible: u64,
    of_equal_sum: u64,
    better: u64,
}

/// Tries `count` other discounts against those at hand.
fn tried(rng: &mut Rng, base: &Pricing, count: usize) -> Seen {
    let mut seen = Seen::default();
    let sum: Fraction = base.x.iter().copied().sum();
    for _ in 0..count {
        let x = other(rng, base);
        if x != base.x && base.admits(&x) {
            seen.admissible += 1;
            seen.of_equal_sum += u64::from(x.iter().copied().sum::<Fraction>() == sum);
            seen.better += u64::from(base.compare(&x) != Ordering::Less);
        }
    }
    seen
}

/// An accepted call over a small book, with one winner or more.
fn small_pricing(rng: &mut Rng) -> Pricing {
    loop {
        let book = small_book(rng);
        let pricing = Pricing::of(&Example::of(rng, book));
        if pricing.w() > 0 {
            return pricing;
        }
    }
}

#[test]
fn no_other_discounts_do_as_well() {
    let mut rng = Rng::new(31);
    let mut by_w = [Seen::default(); 7];
    for _ in 0..6_000 {
        let base = small_pricing(&mut rng);
        let seen = tried(&mut rng, &base, 40);
        assert_eq!(seen.better, 0, "{:?} {:?}", base.book, base.x);
        by_w[base.w()].admissible += seen.admissible;
        by_w[base.w()].of_equal_sum += seen.of_equal_sum;
    }
    println!("{by_w:?}");
    assert!((1..7).all(|w| by_w[w].admissible >= 2_000), "{by_w:?}");
    assert!((2..7).all(|w| by_w[w].of_equal_sum >= 1_000), "{by_w:?}");
}

#[test]
fn no_other_discounts_do_as_well_over_larger_books() {
    let mut rng = Rng::new(32);
    let mut seen = Seen::default();
    for _ in 0..250 {
        let base = Pricing::of(&Example::any(&mut rng));
        if base.w() > 0 && base.book.bids.len() <= 24 {
            let more = tried(&mut rng, &base, 20);
            assert_eq!(more.better, 0, "{:?} {:?}", base.book, base.x);
            seen.admissible += more.admissible;
            seen.of_equal_sum += more.of_equal_sum;
        }
    }
    println!("{seen:?}");
    assert!(
        seen.admissible >= 1_000 && seen.of_equal_sum >= 200,
        "{seen:?}"
    );
}

/// Worse discounts, made from the best of many calls, are nearly all beaten by some of those tried: the tests above can fail.
fn mostly_beaten(seed: u64, rounds: usize, worse: impl Fn(&mut Rng, Pricing) -> Option<Pricing>) {
    let mut rng = Rng::new(seed);
    let mut tried_out = 0;
    let mut beaten = 0;
    for _ in 0..rounds {
        let best = small_pricing(&mut rng);
        if let Some(base) = worse(&mut rng, best) {
            tried_out += 1;
            beaten += u64::from(tried(&mut rng, &base, 60).better > 0);
        }
    }
    println!("{beaten} of {tried_out}");
    assert!(
        tried_out >= 100 && beaten * 10 >= tried_out * 9,
        "{beaten} of {tried_out}"
    );
}

/// Discounts of the greatest sum that are not the nearest.
#[test]
fn discounts_that_are_not_nearest_are_beaten() {
    mostly_beaten(33, 1_500, |rng, best| {
        let x = corner(rng, &best);
        assert!(best.admits(&x));
        (x != best.x).then(|| Pricing { x, ..best })
    });
}

/// Discounts that are too small by a twelfth of one winner's.
#[test]
fn discounts_that_are_too_small_are_beaten() {
    mostly_beaten(34, 500, |rng, mut base| {
        let j = rng.index(0, base.w() - 1);
        let large = base.x[j] != ZERO;
        base.x[j] = base.x[j] * Fraction::new(11, 12);
        large.then_some(base)
    });
}
