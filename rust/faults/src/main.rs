//! Shows the comparison's inputs to faulty copies of the reference, and fails if a fault is not noticed: so the inputs are strong enough.
//! A change that changes no answer must not be noticed.
//!
//!     faults [rounds] [seed]
//!
//! Built with FAULTS=all in the environment, it tries all faults of the table and prints where each was noticed.

mod copies;
mod found;
mod table;

use compare::{edges, rounds};
use copies::ALL;
use found::Found;
use generate::full::KINDS;
use generate::Rng;
use std::process::ExitCode;

fn main() -> ExitCode {
    let mut numbers = std::env::args().skip(1).map(|word| word.parse().expect("a number"));
    let count = numbers.next().unwrap_or(70);
    let seed = numbers.next().unwrap_or(1);
    let mut found = Found::none();
    shown(&mut found, count as usize, seed).expect("no input ends the search");
    print!("{}", found.report(ALL));
    match found.as_it_should() {
        true => ExitCode::SUCCESS,
        false => ExitCode::FAILURE,
    }
}

/// The inputs, as `agree` puts them.
fn shown(found: &mut Found, count: usize, seed: u64) -> Result<(), String> {
    let mut rng = Rng::new(seed);
    edges::put(found)?;
    rounds::rounds(found, &mut rng, count)?;
    rounds::full_round(found, &mut rng, &KINDS[1])
}
