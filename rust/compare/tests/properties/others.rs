//! Other discounts for the same winners, as fractions with denominators of their own.

use crate::pricing::Pricing;
use generate::fraction::{Fraction, ZERO};
use generate::sheets::bounds;
use generate::simplex::greatest_sum;
use generate::Rng;
use reference::sheet::holds;

/// Denominators that are small together: their least common multiple is 27,720.
const DENOMINATORS: [i128; 12] = [1, 2, 3, 4, 5, 6, 7, 8, 9, 10, 11, 12];

/// Some other discounts; there is at least one winner.
pub fn other(rng: &mut Rng, base: &Pricing) -> Vec<Fraction> {
    match rng.range(0, 5) {
        0 => moved(rng, base),
        1 => each_moved(rng, base),
        2 => anywhere(rng, base),
        3 | 4 => along_a_face(rng, base),
        _ => towards_another_corner(rng, base),
    }
}

/// A part of a whole, from `least` to 1.
fn part(rng: &mut Rng, least: i128) -> Fraction {
    let bottom = *rng.pick(&DENOMINATORS);
    Fraction::new(rng.range(least, bottom), bottom)
}

/// Near: a small fraction from one winner to another.
fn moved(rng: &mut Rng, base: &Pricing) -> Vec<Fraction> {
    let mut x = base.x.clone();
    let step = Fraction::new(1, *rng.pick(&DENOMINATORS));
    let (from, to) = (rng.index(0, x.len() - 1), rng.index(0, x.len() - 1));
    x[from] = x[from] - step;
    x[to] = x[to] + step;
    x
}

/// Near: each winner up or down by a small fraction of its own.
fn each_moved(rng: &mut Rng, base: &Pricing) -> Vec<Fraction> {
    let mut x = base.x.clone();
    for x in &mut x {
        let step = Fraction::new(rng.range(-1, 1), *rng.pick(&DENOMINATORS));
        *x = (*x + step).max(ZERO);
    }
    x
}

/// Far: anything up to the lesser of ρ and σ, or up to a part of it that is the same for all.
fn anywhere(rng: &mut Rng, base: &Pricing) -> Vec<Fraction> {
    let weights = &base.weights;
    let share = part(rng, 0);
    (0..base.w())
        .map(|j| {
            let most = weights.rho[j].min(weights.sigma_of_one(j));
            Fraction::whole(most) * share * part(rng, 0)
        })
        .collect()
}

/// An exchange between two winners of a tight set, or two outside of it, up to as far as all bounds
/// let it go: the set stays tight and the sum the same.
fn along_a_face(rng: &mut Rng, base: &Pricing) -> Vec<Fraction> {
    let sets: Vec<usize> = (1..1 << base.w()).collect();
    let tight: Vec<usize> = (sets.iter().copied())
        .filter(|&set| base.room(set) == ZERO)
        .collect();
    let set = if tight.is_empty() {
        0
    } else {
        *rng.pick(&tight)
    };
    let inside = rng.chance(70);
    let members: Vec<usize> = (0..base.w()).filter(|&k| holds(set, k) == inside).collect();
    let mut x = base.x.clone();
    if members.len() < 2 {
        return x;
    }
    let (from, to) = (*rng.pick(&members), *rng.pick(&members));
    if from != to {
        let step = longest(base, from, to) * part(rng, 1);
        x[from] = x[from] - step;
        x[to] = x[to] + step;
    }
    x
}

/// How much may go from one winner to the other.
fn longest(base: &Pricing, from: usize, to: usize) -> Fraction {
    let reserve = Fraction::whole(base.weights.rho[to]) - base.x[to];
    let sets = (1..1 << base.w()).filter(|&set| holds(set, to) && !holds(set, from));
    let rooms = sets.map(|set| base.room(set));
    rooms.chain([reserve, base.x[from]]).min().unwrap_or(ZERO)
}

/// A part of the way to other discounts of the greatest sum, or all of it.
fn towards_another_corner(rng: &mut Rng, base: &Pricing) -> Vec<Fraction> {
    let part = part(rng, 1);
    let corner = corner(rng, base);
    let both = base.x.iter().zip(corner);
    both.map(|(&x, corner)| x + (corner - x) * part).collect()
}

/// Some discounts of the greatest sum within all bounds, wherever the simplex method ends.
pub fn corner(rng: &mut Rng, base: &Pricing) -> Vec<Fraction> {
    let mut bounds = bounds(&base.weights);
    rng.shuffle(&mut bounds);
    greatest_sum(base.w(), (1 << base.w()) - 1, &bounds).x
}
