//! The proved library: its answer to a call, and the greatest values that v and σ are made of.

use reference::combinations::clients_of;
use reference::sheet::holds;
use reference::{Book, Weights};

/// What the library answers to a call.
pub struct Reply {
    /// 0 for acceptance, or the number of the refusal.
    pub number: u32,
    pub w: u32,
    pub q: u32,
    pub prices: [u64; 6],
    /// What the program prints, without the last line feed.
    pub list: String,
}

/// Asks the library. Any bytes will do.
pub fn ask(input: &[u8]) -> Reply {
    let answer = certifier::judge_sheet(input);
    let text = certifier::price_list(input);
    let list = text.bytes.get(..text.len).unwrap_or(&text.bytes);
    Reply {
        number: answer.number,
        w: answer.w,
        q: answer.q,
        prices: answer.prices,
        list: String::from_utf8_lossy(list).trim_end().to_string(),
    }
}

/// 0 for a sound book, or the number of the first question that it fails.
pub fn book_refusal(input: &[u8]) -> u32 {
    certifier::greatest_value(input, 0).number
}

/// v, if the library calls the book sound.
pub fn greatest(input: &[u8]) -> Option<i128> {
    greatest_without(input, 0)
}

/// v, and σ of each set of clients by the set's number, whose bit 0 is client 1.
pub struct Surpluses {
    pub v: i128,
    pub sigma: Vec<i128>,
}

/// The library's table for the clients of a book that it calls sound.
pub fn surpluses(input: &[u8], book: &Book) -> Option<Surpluses> {
    let table = certifier::surpluses(input);
    let sets = 1_usize.checked_shl(book.status.len() as u32)?;
    let sigma = table.sigma.iter().take(sets);
    (table.number == 0).then(|| Surpluses {
        v: table.value.into(),
        sigma: sigma.map(|&sigma| sigma.into()).collect(),
    })
}

/// v, σ and ρ for winners that are a combination. Every greatest value is the library's.
pub fn weights(input: &[u8], book: &Book, winners: &[usize]) -> Option<Weights> {
    let v = greatest(input)?;
    let sigma = |set: usize| {
        let members = (0..winners.len()).filter(|&k| holds(set, k));
        let bids: Vec<usize> = members.map(|k| winners[k]).collect();
        let discard = u8::try_from(clients_of(book, &bids)).ok()?;
        Some(v - greatest_without(input, discard)?)
    };
    let sets = 0..1_usize << winners.len();
    let rho = |&number: &usize| book.bid(number).map(|bid| bid.amount - book.reserves(bid));
    Some(Weights {
        v,
        sigma: sets.map(sigma).collect::<Option<_>>()?,
        rho: winners.iter().map(rho).collect::<Option<_>>()?,
    })
}

fn greatest_without(input: &[u8], discard: u8) -> Option<i128> {
    let worth = certifier::greatest_value(input, discard);
    (worth.number == 0).then_some(i128::from(worth.value))
}
