//! The tables of growth: how our time and that in Rust grow with the bids and with the winners.

use crate::books::{LOOSE, MANY, TIGHT};
use crate::calls::Call;
use crate::judging::{assert_alike, judged, JUDGES};
use crate::timing::{work, Rounds, Work};
use crate::values;
use reference::Book;

/// What is measured of a call's forms: their books alone, and all of them.
struct Measured {
    books: Vec<Vec<u8>>,
    inputs: Vec<Vec<u8>>,
}

impl Measured {
    /// Each form must be accepted with so many winners, and alike.
    fn of(call: &Call, winners: usize) -> Measured {
        let forms = call.forms(MANY);
        let measured = Measured {
            books: forms.iter().map(Call::book_bytes).collect(),
            inputs: forms.iter().map(Call::input).collect(),
        };
        for book in &measured.books {
            assert_eq!(values::ours(book), values::asked(book), "greatest values differ");
        }
        assert_alike("growth", &measured.inputs, 0, winners);
        measured
    }

    /// All 64 greatest values and judging, ours and in Rust by turns; then judging with the old search.
    fn works(&self) -> [Work<'_>; 5] {
        let valued = |values: fn(&[u8]) -> u64| work(move || self.books.iter().map(|book| values(book)).sum::<u64>());
        let [ours, same, old] = JUDGES.map(|judge| judged(judge, &self.inputs));
        [valued(values::ours), valued(values::asked), ours, same, old]
    }
}

/// The book with so many bids of each client, its winning bid among them.
fn fewer(call: &Call, each: usize) -> Book {
    let mut bids = Vec::new();
    for client in 1..=call.book.status.len() {
        let wins = |number: usize| call.sheet.winners.iter().any(|winner| winner.bid == number);
        let mut own: Vec<usize> = (0..call.book.bids.len()).filter(|&i| call.book.bids[i].client == client).collect();
        own.sort_by_key(|&i| !wins(i + 1));
        bids.extend(own.into_iter().take(each));
    }
    bids.sort_unstable();
    let bids = bids.into_iter().map(|i| call.book.bids[i].clone()).collect();
    Book { bids, ..call.book.clone() }
}

/// The book with the first so many clients standing, and the others withdrawn.
fn standing(call: &Call, clients: usize) -> Book {
    let status = (0..6).map(|client| i128::from(clients <= client)).collect();
    Book { status, ..call.book.clone() }
}

/// The columns of growth, and of them judging in ours and by the same in Rust; then judging with the old search.
const COLUMNS: usize = 4;
const OURS: usize = 2;
const SAME: usize = 3;
const OLD: usize = 4;

fn cells(ratios: impl Iterator<Item = f64>) -> String {
    ratios.map(|ratio| format!("{ratio:>10.2}")).collect()
}

/// A row for each step, with its times over those of the first row: four columns for each of its calls. Then for each of its calls, where
/// that is wanted, our time for judging over that in Rust, and over that with the old search.
fn rows(labels: &[usize], steps: &[Vec<Measured>], over_rust: bool) {
    let works: Vec<Work> = steps.iter().flatten().flat_map(Measured::works).collect();
    let rounds = Rounds::of(&works);
    let width = works.len() / labels.len();
    for (row, label) in labels.iter().enumerate() {
        let own = row * width;
        let growing = (0..width).filter(|column| column % (COLUMNS + 1) < COLUMNS);
        let growth = cells(growing.map(|column| rounds.ratio(own + column, column)));
        let over = cells([SAME, OLD].into_iter().filter(|_| over_rust).map(|other| rounds.ratio(own + OURS, own + other)));
        println!("{label:<10}{growth}{over}");
    }
}

fn head(first: &str, kinds: &[&str], [over, names]: [&str; 2]) {
    let columns = |names: [&str; 4]| names.map(|name| format!("{name:>10}")).concat();
    let count = kinds.len();
    let kinds: String = kinds.iter().map(|kind| format!("{kind:>40}")).collect();
    println!("{first:10}{kinds}");
    println!("{:10}{}{over}", "", columns(["", "64 values", "", "judging"]).repeat(count));
    println!("{:10}{}{names}", "", columns(["ours", "Rust", "ours", "Rust"]).repeat(count));
}

pub fn bids_table() {
    println!("Growth with the bids: the time over that for 6 bids, one of each client. The same six clients win; all 64");
    println!("greatest values are those of the same search with the questions put at each call.");
    println!();
    head("bids", &["loose", "tight"], [""; 2]);
    let full = [LOOSE, TIGHT].map(|kind| Call::of_kind(&kind));
    let measured = |call: &Call, each: usize| Measured::of(&Call::over(fewer(call, each)), 6);
    let step = |each: usize| full.iter().map(|call| measured(call, each)).collect();
    rows(&[6, 12, 24, 48], &[1, 2, 4, 8].map(step), false);
}

pub fn winners_table() {
    println!("Growth with the winners: the time over that for one, in a full loose book of which as many clients stand; then our time for");
    println!("judging over that of the same in Rust, and with the old search.");
    println!();
    head("winners", &["loose"], ["        judging over", "      same       old"]);
    let full = Call::of_kind(&LOOSE);
    let step = |clients: usize| vec![Measured::of(&Call::over(standing(&full, clients)), clients)];
    rows(&[1, 2, 3, 4, 5, 6], &[1, 2, 3, 4, 5, 6].map(step), true);
}
