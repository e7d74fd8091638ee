//! Puts many inputs, sound and damaged, to the proved library, to the built program and to the
//! reference, and stops at the first answer that differs. `agree --help` says how.

mod options;
mod proved;

use compare::{calls, edges, rounds, Comparison, Counts};
use generate::full::KINDS;
use generate::Rng;
use options::{Options, HELP};
use proved::{Program, Proved};
use std::path::Path;
use std::process::ExitCode;

/// The directory of the worked calls.
const CALLS: &str = concat!(env!("CARGO_MANIFEST_DIR"), "/../../calls");

fn main() -> ExitCode {
    let asked = Options::read(std::env::args().skip(1));
    let done = asked.and_then(|options| match options.help {
        true => Ok(HELP.to_string()),
        false => compared(&options).and_then(|counts| report(&options, &counts)),
    });
    match done {
        Ok(text) => {
            print!("{text}");
            ExitCode::SUCCESS
        }
        Err(problem) => {
            println!("{problem}");
            ExitCode::FAILURE
        }
    }
}

/// All that was asked for, or the first difference.
fn compared(options: &Options) -> Result<Counts, String> {
    let program = options.program.clone().map(Program);
    let mut comparison = Comparison::with(&Proved);
    if let Some(program) = &program {
        comparison = comparison.and_program(program, options.every);
    }
    let mut rng = Rng::new(options.seed);
    edges::put(&mut comparison)?;
    calls::put(&mut comparison, Path::new(CALLS))?;
    rounds::rounds(&mut comparison, &mut rng, options.rounds)?;
    for kind in KINDS.iter().cycle().take(options.full * KINDS.len()) {
        rounds::full_round(&mut comparison, &mut rng, kind)?;
    }
    Ok(comparison.counts)
}

/// The tally, unless a number is missing.
fn report(options: &Options, counts: &Counts) -> Result<String, String> {
    let by_way = match options.by_way {
        true => counts.tally.by_way(),
        false => String::new(),
    };
    let text = format!("{by_way}{counts}");
    let printed = match options.program {
        Some(_) => counts.printed.missing(15),
        None => Vec::new(),
    };
    match (counts.tally.missing(16).as_slice(), printed.as_slice()) {
        ([], []) if !counts.accepted.are_all_there() => Err(format!("{text}some K, n or w was never accepted")),
        ([], []) => Ok(text),
        (missing, []) => Err(format!("{text}numbers not reached: {missing:?}")),
        (_, missing) => Err(format!("{text}numbers not reached through the program: {missing:?}")),
    }
}
