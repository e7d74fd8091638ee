//! The table of the worst books known, each a file of rust/bench/books. They were found by climbing on the number of bids that a search
//! looks at for all 64 values.

use crate::timing::{work, Rounds, Work};
use crate::values::{asked, copied_asked, old_asked, ours};

/// What each of them is, and its bytes.
pub const BOOKS: [(&str, &[u8]); 4] = [
    ("the old search's worst", include_bytes!("../books/worst-set-by-set.book")),
    ("the search's worst", include_bytes!("../books/worst-in-one-pass.book")),
    ("the worst without falling weights", include_bytes!("../books/worst-without-falling-weights.book")),
    ("the old search takes 1/60 of the time", include_bytes!("../books/quick-set-by-set.book")),
];

/// Ours, and in Rust.
const WAYS: [fn(&[u8]) -> u64; 4] = [ours, asked, copied_asked, old_asked];
/// The old search over the first book, among the ways of all books.
const OLD_WORST: usize = 3;

pub fn table() {
    println!("All 64 greatest values of the worst books known: our time over that in Rust, asked, of the same search, of ours put into");
    println!("Rust line by line and of the old search; and over that of the old search for its own worst book.");
    println!();
    println!("{:40}{:>8}{:>14}{:>8}{:>22}", "book", "same", "line by line", "old", "old over its worst");
    for (name, book) in BOOKS {
        assert_eq!(WAYS.map(|way| way(book)), [ours(book); 4], "greatest values differ: {name}");
    }
    let works: Vec<Work> = BOOKS.iter().flat_map(|&(_, book)| WAYS.map(|way| work(move || way(book)))).collect();
    let rounds = Rounds::of(&works);
    for (place, (name, _)) in BOOKS.iter().enumerate() {
        let own = place * WAYS.len();
        let [same, copied, old, worst] = [own + 1, own + 2, own + 3, OLD_WORST].map(|over| rounds.ratio(own, over));
        println!("{name:40}{same:>8.2}{copied:>14.2}{old:>8.2}{worst:>22.2}");
    }
}
