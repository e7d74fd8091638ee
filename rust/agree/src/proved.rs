//! The proved library and the built program, as the comparison wants them.

use compare::{Certifier, Printer};
use reference::Answer;
use std::io::Write;
use std::process::{Command, Stdio};

/// The proved library, in process.
pub struct Proved;

impl Certifier for Proved {
    fn judge(&self, input: &[u8]) -> Answer {
        let prices = certifier::judge_sheet(input);
        Answer {
            number: narrow(prices.number),
            w: narrow(prices.w),
            q: prices.q,
            prices: prices.prices,
        }
    }

    fn greatest_value(&self, book: &[u8], discard: u8) -> (u8, u64) {
        let worth = certifier::greatest_value(book, discard);
        (narrow(worth.number), u64::from(worth.value))
    }

    fn price_list(&self, input: &[u8]) -> String {
        let text = certifier::price_list(input);
        assert!(text.bytes[text.len..].iter().all(|&byte| byte == 0));
        String::from_utf8(text.bytes[..text.len].to_vec()).expect("the text is ASCII")
    }
}

fn narrow(number: u32) -> u8 {
    u8::try_from(number).expect("a small number")
}

/// The program at this path.
pub struct Program(pub String);

impl Printer for Program {
    /// The input is written to its standard input. It need not read all of it, so that writing may
    /// end early.
    fn print(&self, input: &[u8]) -> Vec<u8> {
        let mut child = Command::new(&self.0)
            .stdin(Stdio::piped())
            .stdout(Stdio::piped())
            .stderr(Stdio::null())
            .spawn()
            .unwrap_or_else(|error| panic!("{}: {error}", self.0));
        let mut stdin = child.stdin.take().expect("it is piped");
        let _ = stdin.write_all(input);
        drop(stdin);
        child.wait_with_output().expect("the program ends").stdout
    }
}
