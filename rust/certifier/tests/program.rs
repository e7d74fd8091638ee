//! The library's answers to the worked calls against what the program itself prints for them.

use certifier::{greatest_value, judge_sheet, price_list, Prices, Worth};
use std::fs::{self, File};
use std::path::{Path, PathBuf};
use std::process::{Command, Stdio};

fn root() -> PathBuf {
    Path::new(env!("CARGO_MANIFEST_DIR")).join("../..")
}

fn calls() -> Vec<PathBuf> {
    let entries = fs::read_dir(root().join("calls")).expect("the worked calls are there");
    let paths = entries.map(|entry| entry.expect("the directory can be read").path());
    paths.filter(|path| path.extension().is_some_and(|end| end == "call")).collect()
}

/// What the program prints with this file as its standard input.
fn printed(call: &Path) -> String {
    let program = root().join("target/bin/price_list");
    let input = File::open(call).expect("the call can be read");
    let run = Command::new(&program).stdin(Stdio::from(input)).output();
    let output = run.unwrap_or_else(|error| panic!("{} is not built: {error}", program.display()));
    String::from_utf8(output.stdout).expect("the text is ASCII")
}

/// The lines for these prices; winners and clients are taken from the bytes of an accepted call.
fn lines(call: &[u8], prices: &Prices) -> String {
    if prices.number > 0 {
        return format!("refused {}\n", prices.number);
    }
    let kinds = usize::from(call[3]);
    let clients = usize::from(call[4 + 3 * kinds]);
    let bids = 6 + 3 * kinds + clients;
    let sheet = usize::from(call[1]) * 256 + usize::from(call[2]);
    let mut lines = format!("accepted {} {}\n", prices.w, prices.q);
    for (k, price) in prices.prices.iter().enumerate().take(prices.w as usize) {
        let bid = usize::from(call[sheet + 4 + k]);
        let client = call[bids + (bid - 1) * (kinds + 5)];
        lines += &format!("{client} {bid} {price}\n");
    }
    lines
}

#[test]
fn worked_calls_are_answered_as_the_program_prints() {
    let calls = calls();
    assert!(calls.len() >= 20, "{} worked calls", calls.len());
    for path in calls {
        let call = fs::read(&path).expect("the call can be read");
        let printed = printed(&path);
        let text = price_list(&call);
        assert_eq!(text.bytes[..text.len], *printed.as_bytes(), "{}", path.display());
        assert!(text.bytes[text.len..].iter().all(|&byte| byte == 0));
        let prices = judge_sheet(&call);
        assert_eq!(lines(&call, &prices), printed, "{}", path.display());
        assert!(prices.prices[prices.w as usize..].iter().all(|&price| price == 0));
    }
}

/// Call J: the book of call A with client 3 discarded, and with a client that is not there.
#[test]
fn greatest_values_come_in_their_places() {
    let book = fs::read(root().join("calls/A.call")).expect("the call can be read");
    assert_eq!(greatest_value(&book, 4), Worth { number: 0, value: 110 });
    assert_eq!(greatest_value(&book, 3), Worth { number: 0, value: 70 });
    assert_eq!(greatest_value(&book, 8), Worth { number: 16, value: 0 });
}
