//! The discounts of a given sum nearest to a target: an exact dual active-set method.
//!
//! It starts from the nearest point of the given sum, without any limit, and takes up one broken
//! limit after the other. The limits taken up are always linearly independent, their multipliers
//! never below zero, and the distance grows with each, so that the method comes to an end.

use crate::fraction::{Fraction, ZERO};

/// A limit: the factors times x total at most `most`.
#[derive(Clone)]
pub struct Limit {
    pub factors: Vec<Fraction>,
    pub most: Fraction,
}

pub struct Nearest {
    pub x: Vec<Fraction>,
    /// The multiplier of the sum, of either sign.
    pub of_sum: Fraction,
    /// For each limit a multiplier, not below zero, and zero where the limit is not met exactly.
    /// Target less x is, for each winner, `of_sum` plus the multipliers times the factors.
    pub of_limits: Vec<Fraction>,
}

/// A row of the active system: the sum (no index) or a limit, and its multiplier.
struct Active {
    limit: Option<usize>,
    factors: Vec<Fraction>,
    multiplier: Fraction,
}

/// There is at least one winner, and some x of that sum within all the limits.
pub fn nearest(target: &[Fraction], sum: Fraction, limits: &[Limit]) -> Nearest {
    let w = Fraction::whole(target.len() as i128);
    let shift = (target.iter().copied().sum::<Fraction>() - sum) / w;
    let mut x: Vec<Fraction> = target.iter().map(|&t| t - shift).collect();
    let mut active = vec![Active {
        limit: None,
        factors: vec![Fraction::whole(1); target.len()],
        multiplier: shift,
    }];

    while let Some(broken) = limits.iter().position(|l| dot(&l.factors, &x) > l.most) {
        take_up(&mut x, &mut active, limits, broken);
    }

    let mut of_limits = vec![ZERO; limits.len()];
    for row in &active {
        if let Some(limit) = row.limit {
            of_limits[limit] = row.multiplier;
        }
    }
    Nearest {
        x,
        of_sum: active[0].multiplier,
        of_limits,
    }
}

/// What is left of the factors once the active rows are taken out by their weights.
fn across(active: &[Active], weights: &[Fraction], factors: &[Fraction]) -> Vec<Fraction> {
    let left = |k: usize| {
        let rows = active.iter().zip(weights);
        factors[k] - rows.map(|(row, &r)| row.factors[k] * r).sum()
    };
    (0..factors.len()).map(left).collect()
}

/// The step at which the first multiplier but that of the sum comes down to zero, and whose it is.
fn first_at_zero(active: &[Active], weights: &[Fraction]) -> Option<(Fraction, usize)> {
    let falling = (1..active.len()).filter(|&i| weights[i].sign() > 0);
    falling
        .map(|i| (active[i].multiplier / weights[i], i))
        .min()
}

/// Moves x onto the broken limit, dropping active limits whose multiplier falls to zero.
fn take_up(x: &mut [Fraction], active: &mut Vec<Active>, limits: &[Limit], broken: usize) {
    let limit = &limits[broken];
    let mut multiplier = ZERO;
    loop {
        let weights = combine(active, &limit.factors);
        let direction = across(active, &weights, &limit.factors);
        let steepness = dot(&direction, &limit.factors);
        let whole_step =
            (steepness != ZERO).then(|| (dot(&limit.factors, x) - limit.most) / steepness);
        let dropped = first_at_zero(active, &weights);
        let (step, dropped) = match (whole_step, dropped) {
            (Some(whole), Some((part, i))) if part < whole => (part, Some(i)),
            (Some(whole), _) => (whole, None),
            (None, Some((part, i))) => (part, Some(i)),
            (None, None) => panic!("no x of that sum is within the limits"),
        };
        for (place, &d) in x.iter_mut().zip(&direction) {
            *place = *place - step * d;
        }
        for (row, &r) in active.iter_mut().zip(&weights) {
            row.multiplier = row.multiplier - step * r;
        }
        multiplier = multiplier + step;
        match dropped {
            Some(i) => {
                active.remove(i);
            }
            None => {
                active.push(Active {
                    limit: Some(broken),
                    factors: limit.factors.clone(),
                    multiplier,
                });
                return;
            }
        }
    }
}

fn dot(a: &[Fraction], b: &[Fraction]) -> Fraction {
    a.iter().zip(b).map(|(&a, &b)| a * b).sum()
}

/// The weights with which the active rows come nearest to `factors`: Gauss elimination on their
/// products with each other, which are regular since the rows are linearly independent.
fn combine(active: &[Active], factors: &[Fraction]) -> Vec<Fraction> {
    let size = active.len();
    let mut table: Vec<Vec<Fraction>> = active
        .iter()
        .map(|row| {
            let products = active.iter().map(|other| dot(&row.factors, &other.factors));
            products.chain([dot(&row.factors, factors)]).collect()
        })
        .collect();
    for column in 0..size {
        let pivot = (column..size)
            .find(|&r| table[r][column] != ZERO)
            .expect("the rows are linearly independent");
        table.swap(column, pivot);
        let by = table[column][column];
        for entry in &mut table[column] {
            *entry = *entry / by;
        }
        let pivot_row = table[column].clone();
        for (r, row) in table.iter_mut().enumerate() {
            let times = row[column];
            if r != column && times != ZERO {
                for (entry, &p) in row.iter_mut().zip(&pivot_row) {
                    *entry = *entry - times * p;
                }
            }
        }
    }
    table.iter().map(|row| row[size]).collect()
}
