//! Discounts and multipliers changed so that some questions still say yes and others no.

use crate::{Changes, Example, Input};
use generate::fraction::{common_multiple, Fraction};
use generate::sheets::bounds;
use generate::simplex::greatest_sum;
use generate::Rng;
use reference::sheet::holds;
use reference::Sheet;

pub fn changed(rng: &mut Rng, example: &Example) -> Vec<Input> {
    let mut changes = Changes::of(example);
    (0..example.sheet.w()).for_each(|j| of_one_winner(&mut changes, rng, j));
    for set in example.sheet.set_numbers() {
        of_one_set(&mut changes, rng, set);
        up_to_sigma(&mut changes, set);
    }
    moved(&mut changes);
    all_at_once(&mut changes);
    sets_broken(&mut changes);
    changes.inputs
}

/// The example itself, and those of the inputs that turn on one set.
pub fn about_sets(rng: &mut Rng, example: &Example) -> Vec<Input> {
    let mut changes = Changes::of(example);
    changes.sheet("unchanged", |_| ());
    for set in example.sheet.set_numbers() {
        of_one_set(&mut changes, rng, set);
    }
    sets_broken(&mut changes);
    changes.inputs
}

/// One winner's multipliers alone.
fn of_one_winner(changes: &mut Changes, rng: &mut Rng, j: usize) {
    let d = rng.range(1, 9);
    let w = changes.example.sheet.w();
    changes.sheet("R and T of one", |sheet| {
        sheet.winners[j].r += d;
        sheet.winners[j].t += d;
    });
    changes.sheet("Z of one to s", |sheet| sheet.winners[j].z = sheet.s);
    changes.sheet("no Z of one", |sheet| sheet.winners[j].z = 0);
    changes.sheet("no R of one", |sheet| sheet.winners[j].r = 0);
    changes.sheet("no T of one", |sheet| sheet.winners[j].t = 0);
    changes.sheet("balance of one broken", |sheet| {
        sheet.g -= d;
        for k in (0..w).filter(|&k| k != j) {
            raise(sheet, k, d);
        }
    });
    changes.sheet("X of one, balance kept", |sheet| {
        sheet.winners[j].x += 1;
        raise(sheet, j, -1);
    });
}

/// One set's multipliers alone. Where U is added, question 14 holds still, and 15 does if the set,
/// and the bounds made use of, are met.
fn of_one_set(changes: &mut Changes, rng: &mut Rng, set: usize) {
    let d = rng.range(1, 9);
    let example = changes.example;
    let w = example.sheet.w();
    changes.sheet("no Y of one set", |sheet| sheet.sets[set].y = 0);
    changes.sheet("no U of one set", |sheet| sheet.sets[set].u = 0);
    changes.sheet("Y of one set to s", |sheet| sheet.sets[set].y = sheet.s);
    changes.sheet("U of one set, members lowered", |sheet| {
        sheet.sets[set].u += d;
        for k in (0..w).filter(|&k| holds(set, k)) {
            lower_if_it_may(sheet, k, d);
        }
    });
    changes.sheet("U of one set, others raised", |sheet| {
        sheet.sets[set].u += d;
        sheet.g -= d;
        for k in (0..w).filter(|&k| !holds(set, k)) {
            raise_if_it_may(sheet, example, k, d);
        }
    });
    changes.sheet("U of one set as singles", |sheet| {
        let u = std::mem::take(&mut sheet.sets[set].u) + d;
        sheet.g -= d;
        for k in 0..w {
            sheet.sets[1 << k].u += if holds(set, k) { u } else { d };
        }
    });
}

/// Discounts up to σ of a set and one past it: one member's raised, or only this set's filled.
fn up_to_sigma(changes: &mut Changes, set: usize) {
    let example = changes.example;
    let base = &example.sheet;
    let room = base.q * example.weights.sigma[set] - base.x_sum(set);
    changes.sheets("X of one set alone", vec![0, 1], |sheet, past| {
        fill_set(sheet, example, set, past);
    });
    for k in (0..base.w()).filter(|&k| holds(set, k)) {
        one_raised(changes, k, room);
        one_raised(changes, k, room + 1);
    }
}

fn one_raised(changes: &mut Changes, k: usize, by: i128) {
    changes.sheet("X of one up to a set's σ", |sheet| {
        sheet.winners[k].x += by
    });
    changes.sheet("X up to a set's σ, balanced", |sheet| {
        sheet.winners[k].x += by;
        raise(sheet, k, -by);
    });
}

/// Discounts moved between two winners, the sum staying the same.
fn moved(changes: &mut Changes) {
    let w = changes.example.sheet.w();
    for pair in 0..w * w {
        let (from, to) = (pair / w, pair % w);
        if from != to {
            moved_between(changes, from, to);
        }
    }
}

fn moved_between(changes: &mut Changes, from: usize, to: usize) {
    let x = changes.example.sheet.winners[from].x;
    for moved in [1, x / 2, x].into_iter().filter(|&moved| moved <= x) {
        changes.sheet("X moved", |sheet| {
            sheet.winners[from].x -= moved;
            sheet.winners[to].x += moved;
        });
        changes.sheet("X moved, balanced", |sheet| {
            sheet.winners[from].x -= moved;
            sheet.winners[to].x += moved;
            raise(sheet, from, moved);
            raise(sheet, to, -moved);
        });
    }
    changes.sheet("X exchanged", |sheet| {
        let x = sheet.winners[from].x;
        sheet.winners[from].x = sheet.winners[to].x;
        sheet.winners[to].x = x;
    });
}

fn all_at_once(changes: &mut Changes) {
    let example = changes.example;
    changes.sheet("no discounts", |sheet| {
        sheet.winners.iter_mut().for_each(|winner| winner.x = 0);
    });
    changes.sheet("no multipliers", |sheet| {
        sheet.g = 0;
        sheet.sets.fill(Default::default());
        for winner in &mut sheet.winners {
            (winner.z, winner.r, winner.t) = (0, 0, 0);
        }
    });
    changes.sheet("q doubled, rest kept", |sheet| sheet.q *= 2);
    changes.sheet("s doubled, rest kept", |sheet| sheet.s *= 2);
    changes.sheet("sets in reverse", |sheet| sheet.sets[1..].reverse());
    changes.sheet("greatest numbers", |sheet| {
        (sheet.q, sheet.s) = (10_000, 10_000);
        sheet
            .winners
            .iter_mut()
            .for_each(|winner| winner.z = 10_000);
        for set in &mut sheet.sets[1..] {
            (set.y, set.u) = (10_000, 1_000_000_000_000);
        }
    });
    // Distances from the capped maximum: equal steps down from the lesser of ρ and σ.
    changes.sheet("capped maximum", |sheet| capped(sheet, example));
}

fn sets_broken(changes: &mut Changes) {
    for broken in one_set_broken(changes.example) {
        changes.sheet("σ of one set broken", |sheet| *sheet = broken.clone());
    }
}

/// Raises the right side of a winner's balance by `by` with R, or lowers it with T.
fn raise(sheet: &mut Sheet, k: usize, by: i128) {
    if by >= 0 {
        sheet.winners[k].r += by;
    } else {
        sheet.winners[k].t -= by;
    }
}

/// Raises it with a multiplier that question 15 lets stand, if there is one.
fn raise_if_it_may(sheet: &mut Sheet, example: &Example, k: usize, by: i128) {
    let at = |bound: i128| sheet.winners[k].x == sheet.q * bound;
    if sheet.winners[k].t >= by {
        sheet.winners[k].t -= by;
    } else if at(example.weights.sigma_of_one(k)) && !at(example.weights.rho[k]) {
        sheet.sets[1 << k].u += by;
    } else {
        sheet.winners[k].r += by;
    }
}

/// Lowers it with a multiplier that question 15 lets stand, if there is one.
fn lower_if_it_may(sheet: &mut Sheet, k: usize, by: i128) {
    if sheet.winners[k].r >= by {
        sheet.winners[k].r -= by;
    } else if sheet.sets[1 << k].u >= by {
        sheet.sets[1 << k].u -= by;
    } else {
        sheet.winners[k].t += by;
    }
}

/// For each set, where there are any, discounts that break its bound and no other: the greatest
/// sum of the set under all bounds but its own, and half the way there from the accepted ones.
pub fn one_set_broken(example: &Example) -> Vec<Sheet> {
    let base = &example.sheet;
    let mut sheets = Vec::new();
    for set in base.set_numbers() {
        let mut others = bounds(&example.weights);
        others.remove(set - 1);
        let greatest = greatest_sum(base.w(), set, &others);
        let q = base.q * common_multiple(greatest.x.iter().map(|x| x.bottom));
        if greatest.sum > Fraction::whole(example.weights.sigma[set]) && q <= 5_000 {
            let mut far = base.clone();
            let mut half_way = base.clone();
            far.q = q;
            half_way.q = 2 * q;
            for (k, x) in greatest.x.iter().enumerate() {
                far.winners[k].x = x.scaled(q);
                half_way.winners[k].x = x.scaled(q) + base.winners[k].x * (q / base.q);
            }
            sheets.extend([far, half_way]);
        }
    }
    sheets
}

/// Gives the members of a set its whole σ and `past`, as evenly as whole numbers allow, and the
/// others nothing; the balances of question 14 are made up with R and T.
fn fill_set(sheet: &mut Sheet, example: &Example, set: usize, past: i128) {
    let mut members = set.count_ones();
    let mut left = sheet.q * example.weights.sigma[set] + past;
    for (k, winner) in sheet.winners.iter_mut().enumerate() {
        winner.x = 0;
        if holds(set, k) {
            let even = left / i128::from(members);
            winner.x = even.min(sheet.q * example.weights.rho[k]);
            left -= winner.x;
            members -= 1;
        }
    }
    (0..sheet.w()).for_each(|k| balance(sheet, example, k));
}

/// Makes up a winner's balance with R or T.
fn balance(sheet: &mut Sheet, example: &Example, k: usize) {
    let wanted = sheet.q * example.weights.sigma_of_one(k) - sheet.winners[k].x;
    let there = sheet.g + sheet.sum_over_sets_holding(k, |set| set.u);
    (sheet.winners[k].r, sheet.winners[k].t) = (0, 0);
    raise(sheet, k, wanted - there);
}

/// The same sum, spread as if the distances were taken from the lesser of ρ(j) and σ(j).
fn capped(sheet: &mut Sheet, example: &Example) {
    let w = sheet.w() as i128;
    let weights = &example.weights;
    let cap = |k: usize| weights.rho[k].min(weights.sigma_of_one(k)) * sheet.q;
    let caps: Vec<i128> = (0..sheet.w()).map(cap).collect();
    let sum: i128 = sheet.winners.iter().map(|winner| winner.x).sum();
    if w > 0 && sheet.q * w <= 10_000 {
        let short = caps.iter().sum::<i128>() - sum;
        sheet.q *= w;
        sheet.g = short;
        for (winner, cap) in sheet.winners.iter_mut().zip(caps) {
            winner.x = (cap * w - short).max(0);
        }
    }
}
