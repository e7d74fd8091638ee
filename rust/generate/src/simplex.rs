//! The greatest sum of discounts: an exact simplex method with Bland's rule.

use crate::fraction::{Fraction, ZERO};

/// A bound on a sum: the x of a set of winners total at most `most`, which is not below zero.
#[derive(Clone, Copy, Debug)]
pub struct Bound {
    /// Bit k stands for winner k.
    pub set: usize,
    pub most: i128,
}

pub struct Greatest {
    /// The greatest sum of the x in question.
    pub sum: Fraction,
    /// An x with that sum.
    pub x: Vec<Fraction>,
    /// A multiplier for each bound, none below zero. Those of the bounds on a winner in question
    /// total at least 1, and all of them times their bounds total the sum.
    pub multipliers: Vec<Fraction>,
}

/// Each row says: its variable = `constant` - sum of `factors` times the column variables.
struct Row {
    variable: usize,
    constant: Fraction,
    factors: Vec<Fraction>,
}

/// Maximises the sum of x over the set `of`, out of `w` of them, none below zero, under the bounds.
/// Variables 0 to w - 1 are the x, variable w + i is what bound i leaves over. Every x has a bound.
pub fn greatest_sum(w: usize, of: usize, bounds: &[Bound]) -> Greatest {
    let bit = |set: usize, k: usize| Fraction::whole(((set >> k) & 1) as i128);
    let mut rows: Vec<Row> = bounds
        .iter()
        .enumerate()
        .map(|(i, bound)| Row {
            variable: w + i,
            constant: Fraction::whole(bound.most),
            factors: (0..w).map(|k| bit(bound.set, k)).collect(),
        })
        .collect();
    let mut columns: Vec<usize> = (0..w).collect();
    // The sum is `sum.constant` - the factors times the column variables.
    let mut sum = Row {
        variable: usize::MAX,
        constant: ZERO,
        factors: (0..w).map(|k| -bit(of, k)).collect(),
    };

    while let Some(column) = entering(&columns, &sum) {
        let row = leaving(&rows, column);
        pivot(&mut rows, &mut columns, &mut sum, row, column);
    }

    let mut multipliers = vec![ZERO; bounds.len()];
    for (&variable, &factor) in columns.iter().zip(&sum.factors) {
        if variable >= w {
            multipliers[variable - w] = factor;
        }
    }
    let mut x = vec![ZERO; w];
    for row in rows.iter().filter(|row| row.variable < w) {
        x[row.variable] = row.constant;
    }
    Greatest {
        sum: sum.constant,
        x,
        multipliers,
    }
}

/// The column of the lowest variable that raises the sum.
fn entering(columns: &[usize], sum: &Row) -> Option<usize> {
    let raising = (0..columns.len()).filter(|&c| sum.factors[c].sign() < 0);
    raising.min_by_key(|&c| columns[c])
}

/// The row that first reaches zero; the lowest variable among equals.
fn leaving(rows: &[Row], column: usize) -> usize {
    let falling = (0..rows.len()).filter(|&r| rows[r].factors[column].sign() > 0);
    let first =
        falling.min_by_key(|&r| (rows[r].constant / rows[r].factors[column], rows[r].variable));
    first.expect("every variable has a bound")
}

fn pivot(rows: &mut [Row], columns: &mut [usize], sum: &mut Row, row: usize, column: usize) {
    // Solve the row for the column's variable.
    let pivot_row = &mut rows[row];
    std::mem::swap(&mut pivot_row.variable, &mut columns[column]);
    let by = pivot_row.factors[column];
    pivot_row.factors[column] = Fraction::whole(1);
    pivot_row.constant = pivot_row.constant / by;
    for factor in &mut pivot_row.factors {
        *factor = *factor / by;
    }
    // Put it into the others.
    let constant = pivot_row.constant;
    let factors = pivot_row.factors.clone();
    let others = rows.iter_mut().enumerate().filter(|(r, _)| *r != row);
    for other in others.map(|(_, other)| other).chain([sum]) {
        let times = std::mem::replace(&mut other.factors[column], ZERO);
        if times != ZERO {
            other.constant = other.constant - times * constant;
            for (factor, &pivot_factor) in other.factors.iter_mut().zip(&factors) {
                *factor = *factor - times * pivot_factor;
            }
        }
    }
}
