//! The command line: what is asked for, done, and the exit status.

use crate::assemble::{self, is_text};
use crate::explain::explain;
use crate::files::{self, complain, placed, say, told, Contents};
use crate::help::HELP;
use crate::library;
use crate::options::{asked, Asked};
use crate::propose::{propose, Proposal};
use crate::report::report;
use crate::show::show;
use crate::sums::numbers;
use crate::words::Fault;
use std::ffi::{OsStr, OsString};

/// Exit statuses, as `--help` has them.
pub const DONE: u8 = 0;
pub const REFUSED: u8 = 1;
pub const WRONG: u8 = 2;
pub const UNREADABLE: u8 = 3;

/// The most faults that are told one by one.
const MOST_FAULTS: usize = 100;

/// What was done, or the exit status for what was not, which has been told.
type Done<T> = Result<T, u8>;

/// Runs the command with the words after its name.
pub fn run(words: &[OsString]) -> u8 {
    let done = match asked(words) {
        Err(wrong) => told_as(&format!("{wrong}; call --help says more"), WRONG),
        Ok(Asked::Help) => put(HELP.as_bytes()).map(|()| DONE),
        Ok(Asked::Version) => put(version().as_bytes()).map(|()| DONE),
        Ok(Asked::Assemble { file, out }) => assemble_file(&file, &out),
        Ok(Asked::Show { file, json: false }) => show_file(&file),
        Ok(Asked::Explain { file, json: false }) => explain_file(&file),
        Ok(Asked::Show { file, json: true }) => report_file(&file, |_| DONE),
        Ok(Asked::Explain { file, json: true }) => report_file(&file, verdict),
        Ok(Asked::Propose { file, out }) => propose_file(&file, &out),
    };
    done.unwrap_or_else(|status| status)
}

fn version() -> String {
    format!("call {}\n", env!("CARGO_PKG_VERSION"))
}

fn told_as<T>(words: &str, status: u8) -> Done<T> {
    complain(words);
    Err(status)
}

/// Writes to standard output.
fn put(bytes: &[u8]) -> Done<()> {
    put_to(OsStr::new("-"), bytes)
}

fn put_to(out: &OsStr, bytes: &[u8]) -> Done<()> {
    files::write(out, bytes).or_else(|error| told_as(&error, UNREADABLE))
}

/// The bytes of the call that a file holds, as bytes or as text.
fn call_in(file: &OsStr) -> Done<Vec<u8>> {
    let contents = read(file)?;
    match is_text(&contents.bytes) {
        true => call_of_text(file, contents),
        false => {
            tell_cut(file, &contents);
            Ok(contents.bytes)
        }
    }
}

/// The bytes of the call that a text makes.
fn call_of_text(file: &OsStr, contents: Contents) -> Done<Vec<u8>> {
    if contents.cut {
        let (name, most) = (told(file), files::MOST);
        return told_as(
            &format!("{name} is longer than {most} bytes, which no text of a call is"),
            WRONG,
        );
    }
    let reading = assemble::read(&contents.bytes);
    for Fault { line, column, what } in &reading.warnings {
        say(&format!(
            "{}:{line}:{column}: warning: {what}",
            placed(file)
        ));
    }
    reading.bytes().or_else(|faults| {
        tell_faults(file, &faults);
        Err(WRONG)
    })
}

fn read(file: &OsStr) -> Done<Contents> {
    files::read(file).or_else(|error| told_as(&error, UNREADABLE))
}

fn tell_faults(file: &OsStr, faults: &[Fault]) {
    for fault in faults.iter().take(MOST_FAULTS) {
        say(&format!("{}:{fault}", placed(file)));
    }
    if faults.len() > MOST_FAULTS {
        complain(&format!(
            "{} has {} faults more",
            told(file),
            faults.len() - MOST_FAULTS
        ));
    }
}

/// The longest call has 1,406 bytes, so what is cut off changes no answer.
fn tell_cut(file: &OsStr, contents: &Contents) {
    if contents.cut {
        complain(&format!(
            "{} is longer than any call; only its first {} bytes are read, and counted",
            told(file),
            files::MOST
        ));
    }
}

fn may_write(file: &OsStr, out: &OsStr) -> Done<()> {
    match files::no_place_for_bytes(file, out) {
        None => Ok(()),
        Some(why) => told_as(&why, WRONG),
    }
}

fn assemble_file(file: &OsStr, out: &OsStr) -> Done<u8> {
    may_write(file, out)?;
    let contents = read(file)?;
    if !contents.cut && !contents.bytes.is_empty() && !is_text(&contents.bytes) {
        let said = format!("{} is no text; perhaps it is a call already", told(file));
        return told_as(&said, WRONG);
    }
    let call = call_of_text(file, contents)?;
    put_to(out, &call)?;
    Ok(DONE)
}

fn show_file(file: &OsStr) -> Done<u8> {
    let shown = show(&call_in(file)?);
    put(shown.text.as_bytes())?;
    match shown.stopped {
        None => Ok(DONE),
        Some(stopped) => told_as(&format!("{}: {stopped}", told(file)), REFUSED),
    }
}

fn explain_file(file: &OsStr) -> Done<u8> {
    let explained = explain(&call_in(file)?);
    put(explained.text.as_bytes())?;
    Ok(if explained.accepted { DONE } else { REFUSED })
}

fn report_file(file: &OsStr, status: fn(&[u8]) -> u8) -> Done<u8> {
    let call = call_in(file)?;
    put(format!("{}\n", report(&call)).as_bytes())?;
    Ok(status(&call))
}

fn verdict(call: &[u8]) -> u8 {
    match library::ask(call).number {
        0 => DONE,
        _ => REFUSED,
    }
}

fn propose_file(file: &OsStr, out: &OsStr) -> Done<u8> {
    may_write(file, out)?;
    let book = call_in(file)?;
    match propose(&book) {
        Err(why) => told_as(&format!("{}: {why}", told(file)), REFUSED),
        Ok(proposal) => {
            tell_proposal(&proposal);
            put_to(out, &proposal.call)?;
            Ok(DONE)
        }
    }
}

/// Whose the proposal is, and whose the verdict.
fn tell_proposal(proposal: &Proposal) {
    let first = proposal.reply.list.lines().next().unwrap_or("");
    complain(&format!(
        "the sheet is a proposal, made by a method that is not proved; the verdict is the proved library's: {first}"
    ));
    let others = match proposal.equals {
        0 => String::new(),
        1 => "another combination is worth as much".to_string(),
        count => format!("{count} other combinations are worth as much"),
    };
    if !others.is_empty() {
        complain(&format!(
            "{others}; the proposal takes bids {}",
            numbers(&proposal.bids)
        ));
    }
    if proposal.replaced {
        complain("what follows the book was not looked at, and another sheet stands in its place");
    }
}
