//! Judges a call through the library and prints what the program prints, made from the answer's fields.
//!
//!     cargo run --manifest-path rust/Cargo.toml -p certifier --example judge calls/spring.call

#![forbid(unsafe_code)]

use certifier::{judge_sheet, Prices};
use std::io::Write;
use std::process::ExitCode;

fn main() -> ExitCode {
    let Some(name) = std::env::args_os().nth(1) else {
        return complain("give the name of a call");
    };
    let call = match std::fs::read(name) {
        Ok(call) => call,
        Err(error) => return complain(&format!("the call cannot be read: {error}")),
    };
    let list = price_list(&call, &judge_sheet(&call));
    match std::io::stdout().write_all(list.as_bytes()) {
        Ok(()) => ExitCode::SUCCESS,
        Err(error) => complain(&format!("the answer cannot be written: {error}")),
    }
}

fn complain(what: &str) -> ExitCode {
    let _ = writeln!(std::io::stderr(), "judge: {what}");
    ExitCode::from(2)
}

fn price_list(call: &[u8], answer: &Prices) -> String {
    if answer.number != 0 {
        return format!("refused {}\n", answer.number);
    }
    let mut lines = format!("accepted {} {}\n", answer.w, answer.q);
    // The sheet stands after the book, and the winners' bid numbers from its fourth byte on.
    let sheet = usize::from(call[1]) * 256 + usize::from(call[2]);
    let bids = &call[sheet + 4..][..answer.w as usize];
    for (&bid, price) in bids.iter().zip(answer.prices) {
        let client = call[bid_at(call, usize::from(bid))];
        lines += &format!("{client} {bid} {price}\n");
    }
    lines
}

/// Where the client of a bid stands in an accepted call; bids count from 1.
fn bid_at(call: &[u8], bid: usize) -> usize {
    let kinds = usize::from(call[3]);
    let clients = usize::from(call[4 + 3 * kinds]);
    6 + 3 * kinds + clients + (bid - 1) * (kinds + 5)
}
