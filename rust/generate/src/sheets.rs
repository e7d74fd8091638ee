//! Acceptable sheets: the discounts with the greatest sum and, among those, the least total of
//! squared distances from the σ(j), with multipliers that show both.

use crate::fraction::{common_multiple, Fraction, ZERO};
use crate::nearest::{nearest, Limit, Nearest};
use crate::simplex::{greatest_sum, Bound};
use crate::Rng;
use reference::combinations::{each_combination, value, Values};
use reference::sheet::{holds, Multipliers, Sheet, Winner};
use reference::weights::Weights;
use reference::Book;

/// The combinations of greatest value, as lists of bid numbers by rising client.
pub fn winning_combinations(book: &Book) -> Vec<Vec<usize>> {
    weighed(book).1
}

/// The greatest values of a book and its winning combinations, from one listing.
pub fn weighed(book: &Book) -> (Values, Vec<Vec<usize>>) {
    let mut values = Values::before_any(book);
    let mut greatest = 0;
    let mut lists = Vec::new();
    each_combination(book, |list| {
        values.note(book, list);
        let value = value(book, list);
        if value > greatest {
            greatest = value;
            lists.clear();
        }
        if value == greatest {
            lists.push(list.to_vec());
        }
    });
    (values, lists)
}

/// A sheet for winners of greatest value. Its discounts are the only ones; its multipliers, where
/// there are several, are chosen at random, with the least q and s that they allow.
pub fn acceptable_sheet(rng: &mut Rng, weights: &Weights, winners: &[usize]) -> Sheet {
    sheet_by(&mut |count| shuffled(rng, count), weights, winners)
}

/// The same with the multipliers that come first: the same book always has the same sheet.
pub fn first_sheet(weights: &Weights, winners: &[usize]) -> Sheet {
    sheet_by(&mut |count| (0..count).collect(), weights, winners)
}

/// Gives the order in which so many bounds are taken up. Which multipliers are found hangs on it.
type Order<'a> = &'a mut dyn FnMut(usize) -> Vec<usize>;

/// q and s are in range whatever the order. s divides a determinant of zeros and ones, with six rows
/// at most: 9 at most. q divides such a number times a sum of squares of such determinants: 9 × 150
/// at most.
fn sheet_by(order: Order, weights: &Weights, winners: &[usize]) -> Sheet {
    let w = winners.len();
    let bounds = bounds(weights);
    let places = order(bounds.len());
    let mut greatest = greatest_sum(w, (1 << w) - 1, &taken(&places, &bounds));
    greatest.multipliers = put_back(&places, greatest.multipliers);
    let nearest = nearest_discounts(order, weights, &bounds, greatest.sum);

    let s = common_multiple(greatest.multipliers.iter().map(|f| f.bottom));
    let all_of_nearest = (nearest.x.iter())
        .chain(&nearest.of_limits)
        .chain([&nearest.of_sum]);
    let q = common_multiple(all_of_nearest.map(|f| f.bottom));

    // The bounds, and likewise the limits, are the sets and then the winners' reserves; the
    // limits go on with x not below zero.
    let sets = (1 << w) - 1;
    let winner = |(k, &bid): (usize, &usize)| Winner {
        bid,
        x: nearest.x[k].scaled(q),
        z: greatest.multipliers[sets + k].scaled(s),
        r: nearest.of_limits[sets + k].scaled(q),
        t: nearest.of_limits[sets + w + k].scaled(q),
    };
    let set = |i: usize| Multipliers {
        y: greatest.multipliers[i].scaled(s),
        u: nearest.of_limits[i].scaled(q),
    };
    Sheet {
        q,
        s,
        winners: winners.iter().enumerate().map(winner).collect(),
        g: nearest.of_sum.scaled(q),
        sets: [Multipliers::default()]
            .into_iter()
            .chain((0..sets).map(set))
            .collect(),
    }
}

/// The bound σ of each set, by set number from 1, then the bound ρ of each winner.
pub fn bounds(weights: &Weights) -> Vec<Bound> {
    let sets = (1..weights.sigma.len()).map(|set| Bound {
        set,
        most: weights.sigma[set],
    });
    let reserves = weights.rho.iter().enumerate().map(|(k, &rho)| Bound {
        set: 1 << k,
        most: rho,
    });
    sets.chain(reserves).collect()
}

/// The places of so many items in a random order.
fn shuffled(rng: &mut Rng, count: usize) -> Vec<usize> {
    let mut places: Vec<usize> = (0..count).collect();
    rng.shuffle(&mut places);
    places
}

/// The items at these places, in their order.
fn taken<T: Clone>(places: &[usize], items: &[T]) -> Vec<T> {
    places.iter().map(|&place| items[place].clone()).collect()
}

/// The items back at the places they had before.
fn put_back(places: &[usize], items: Vec<Fraction>) -> Vec<Fraction> {
    let mut pairs: Vec<(usize, Fraction)> = places.iter().copied().zip(items).collect();
    pairs.sort_by_key(|pair| pair.0);
    pairs.into_iter().map(|pair| pair.1).collect()
}

fn nearest_discounts(order: Order, weights: &Weights, bounds: &[Bound], sum: Fraction) -> Nearest {
    let w = weights.rho.len();
    if w == 0 {
        return Nearest {
            x: Vec::new(),
            of_sum: ZERO,
            of_limits: Vec::new(),
        };
    }
    let target: Vec<Fraction> = (0..w)
        .map(|j| Fraction::whole(weights.sigma_of_one(j)))
        .collect();
    let from_bounds = bounds.iter().map(|bound| Limit {
        factors: (0..w)
            .map(|k| Fraction::whole(i128::from(holds(bound.set, k))))
            .collect(),
        most: Fraction::whole(bound.most),
    });
    let not_below_zero = (0..w).map(|j| Limit {
        factors: (0..w)
            .map(|k| Fraction::whole(-i128::from(k == j)))
            .collect(),
        most: ZERO,
    });
    let limits: Vec<Limit> = from_bounds.chain(not_below_zero).collect();
    let places = order(limits.len());
    let mut nearest = nearest(&target, sum, &taken(&places, &limits));
    nearest.of_limits = put_back(&places, nearest.of_limits);
    nearest
}

/// The same discounts with other multipliers that are accepted as well: q and s multiplied, weight
/// moved between G and the set of all winners, and multipliers where they weigh nothing.
pub fn dressed(rng: &mut Rng, weights: &Weights, sheet: &Sheet) -> Sheet {
    let mut sheet = sheet.clone();
    if sheet.w() == 0 {
        sheet.q = rng.range(1, 10_000);
        sheet.s = rng.range(1, 10_000);
        sheet.g = rng.range(-1_000_000_000_000, 1_000_000_000_000);
        return sheet;
    }
    multiply_q(&mut sheet, rng);
    multiply_s(&mut sheet, rng);

    let all = sheet.sets.len() - 1;
    if rng.chance(50) && sheet.x_sum(all) == sheet.q * weights.sigma[all] {
        let moved = rng.range(-sheet.sets[all].u, 1_000_000);
        sheet.g -= moved;
        sheet.sets[all].u += moved;
    }
    for (k, winner) in sheet.winners.iter_mut().enumerate() {
        if weights.rho[k] == 0 && rng.chance(50) {
            let more = rng.range(0, 1_000_000);
            winner.r += more;
            winner.t += more;
            winner.z = rng.range(winner.z, 10_000);
        }
    }
    for (set, &sigma) in sheet.sets.iter_mut().zip(&weights.sigma).skip(1) {
        if sigma == 0 && rng.chance(50) {
            set.y = rng.range(set.y, 10_000);
        }
    }
    sheet
}

fn multiply_q(sheet: &mut Sheet, rng: &mut Rng) {
    let most = 10_000 / sheet.q;
    let by = *rng.pick(&[1, 2, 3, most]).min(&most);
    sheet.q *= by;
    sheet.g *= by;
    for winner in &mut sheet.winners {
        winner.x *= by;
        winner.r *= by;
        winner.t *= by;
    }
    for set in &mut sheet.sets {
        set.u *= by;
    }
}

fn multiply_s(sheet: &mut Sheet, rng: &mut Rng) {
    let ys = sheet.sets.iter().map(|set| set.y);
    let zs = sheet.winners.iter().map(|winner| winner.z);
    let largest = ys.chain(zs).chain([sheet.s]).max().unwrap_or(1);
    let most = 10_000 / largest;
    let by = *rng.pick(&[1, 2, 3, most]).min(&most);
    sheet.s *= by;
    for winner in &mut sheet.winners {
        winner.z *= by;
    }
    for set in &mut sheet.sets {
        set.y *= by;
    }
}
