//! Questions 7 and 10 to 15 in Rust.

use crate::sheet::Sheet;

/// σ by set number, and ρ by winner.
pub struct Bounds {
    pub sigma: [u64; 64],
    pub rho: [u64; 6],
}

fn holds(set: usize, k: usize) -> bool {
    set >> k & 1 == 1
}

fn at_most(numbers: &[u64], most: u64) -> bool {
    numbers.iter().all(|&number| number <= most)
}

/// Question 7; the places that the sheet does not fill are 0, in range.
pub fn in_range(sheet: &Sheet) -> bool {
    const LARGE: u64 = 1_000_000_000_000;
    let scales = (1..=10_000).contains(&sheet.q) && (1..=10_000).contains(&sheet.s);
    let winners = at_most(&sheet.x, 10_000_000_000)
        && at_most(&sheet.z, 10_000)
        && at_most(&sheet.r, LARGE)
        && at_most(&sheet.t, LARGE);
    let sets = at_most(&sheet.y, 10_000) && at_most(&sheet.u, LARGE);
    scales && winners && sets && sheet.g.unsigned_abs() <= LARGE
}

fn sum_in(sheet: &Sheet, set: usize) -> u64 {
    (0..sheet.w).filter(|&k| holds(set, k)).map(|k| sheet.x[k]).sum()
}

fn held(w: usize, k: usize, numbers: &[u64; 64]) -> u64 {
    (1..1 << w).filter(|&set| holds(set, k)).map(|set| numbers[set]).sum()
}

/// Question 10.
fn reserves_kept(sheet: &Sheet, b: &Bounds) -> bool {
    (0..sheet.w).all(|j| sheet.x[j] <= sheet.q * b.rho[j])
}

/// Question 11.
fn sets_kept(sheet: &Sheet, b: &Bounds) -> bool {
    (1..1 << sheet.w).all(|set| sum_in(sheet, set) <= sheet.q * b.sigma[set])
}

/// Question 12.
fn covered(sheet: &Sheet) -> bool {
    (0..sheet.w).all(|j| sheet.s <= sheet.z[j] + held(sheet.w, j, &sheet.y))
}

/// Question 13.
fn totals_meet(sheet: &Sheet, b: &Bounds) -> bool {
    let sets: u64 = (1..1 << sheet.w).map(|set| sheet.y[set] * b.sigma[set]).sum();
    let winners: u64 = (0..sheet.w).map(|j| sheet.z[j] * b.rho[j]).sum();
    let total: u64 = sheet.x[..sheet.w].iter().sum();
    sheet.q * (sets + winners) == sheet.s * total
}

/// Question 14; within question 7's ranges nothing here reaches 10^14.
fn balanced(sheet: &Sheet, b: &Bounds) -> bool {
    (0..sheet.w).all(|j| {
        let far = (sheet.q * b.sigma[1 << j]) as i64 - sheet.x[j] as i64;
        let drawn = held(sheet.w, j, &sheet.u) + sheet.r[j];
        far == sheet.g + drawn as i64 - sheet.t[j] as i64
    })
}

/// Question 15.
fn slack(sheet: &Sheet, b: &Bounds) -> bool {
    let met = |multiplier: u64, sum: u64, bound: u64| multiplier == 0 || sum == bound;
    (1..1 << sheet.w).all(|set| met(sheet.u[set], sum_in(sheet, set), sheet.q * b.sigma[set]))
        && (0..sheet.w).all(|j| met(sheet.r[j], sheet.x[j], sheet.q * b.rho[j]))
        && (0..sheet.w).all(|j| met(sheet.t[j], sheet.x[j], 0))
}

/// The first of questions 10 to 15 that is answered no, for a sheet in its ranges.
pub fn judged(sheet: &Sheet, b: &Bounds) -> Result<(), u8> {
    let ask = |yes: bool, number: u8| if yes { Ok(()) } else { Err(number) };
    ask(reserves_kept(sheet, b), 10)?;
    ask(sets_kept(sheet, b), 11)?;
    ask(covered(sheet), 12)?;
    ask(totals_meet(sheet, b), 13)?;
    ask(balanced(sheet, b), 14)?;
    ask(slack(sheet, b), 15)
}
