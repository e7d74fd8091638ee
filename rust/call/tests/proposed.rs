//! Proposals: over books of every kind the library accepts them, and nothing that it refuses is handed out.

mod common;

use call::library;
use call::propose::{judged, propose};
use common::{root, run, run_with_input, Scratch};
use generate::full::{varied, KINDS};
use generate::planted::{challenged_book, planted_book};
use generate::{random_book, small_book, write, Rng};
use reference::{Book, Sheet};
use std::fs;

/// Full books of the seven kinds, as they are and varied.
const FULL: usize = 5 * KINDS.len();

/// Books of every kind that rust/generate makes, with the kind's name.
fn books(rng: &mut Rng) -> Vec<(&'static str, Book)> {
    let mut books = Vec::new();
    books.extend((0..2_000).map(|_| ("small", small_book(rng))));
    books.extend((0..1_000).map(|_| ("of any size", random_book(rng))));
    books.extend((0..1_000).map(|_| ("planted", planted_book(rng, 8))));
    books.extend((1..=62).map(|set| ("challenged", challenged_book(rng, set))));
    for kind in KINDS.iter().cycle().take(FULL) {
        books.push((kind.name, kind.book(rng.bits() >> 1)));
        let plain = kind.book(rng.bits() >> 1);
        books.push((kind.name, varied(rng, plain)));
    }
    books
}

#[test]
fn all_are_accepted() {
    let mut rng = Rng::new(71);
    let books = books(&mut rng);
    let mut by_winners = [0; 7];
    for (name, book) in &books {
        let bytes = write::book(book);
        let proposal = propose(&bytes).unwrap_or_else(|why| panic!("{name}: {why}: {book:?}"));
        assert_eq!(library::ask(&proposal.call).number, 0, "{name}: {book:?}");
        assert_eq!(proposal.call[..bytes.len()], bytes[..]);
        by_winners[proposal.bids.len()] += 1;
    }
    println!(
        "{} proposals accepted; by winners {by_winners:?}",
        books.len()
    );
    assert_eq!(books.len(), 2_000 + 1_000 + 1_000 + 62 + 2 * FULL);
    assert!(
        by_winners.iter().all(|&count| count > 100),
        "{by_winners:?}"
    );
}

/// The same book has the same proposal, whatever follows it.
#[test]
fn the_same_each_time() {
    let call = fs::read(root().join("calls/H.call")).unwrap();
    let book = fs::read(root().join("calls/no-sheet.call")).unwrap();
    let (of_call, of_book) = (propose(&call).unwrap(), propose(&book).unwrap());
    assert_eq!(of_call.call, of_book.call);
    assert!(of_call.replaced && !of_book.replaced);
    assert_eq!(of_book.call, fs::read(root().join("calls/A.call")).unwrap());
}

#[test]
fn what_is_refused_is_not_handed_out() {
    let call = fs::read(root().join("calls/F.call")).unwrap();
    let book = fs::read(root().join("calls/no-sheet.call")).unwrap();
    let sheet = Sheet::read(&call[book.len()..]).unwrap();
    let why = judged(&book, &sheet).err().expect("F is refused");
    assert!(
        why.contains("is refused with 13 by the proved library, and is not written"),
        "{why}"
    );
}

/// From bids alone to a call, and what is said beside it.
#[test]
fn from_a_text_of_bids() {
    let text = b"kind supply 2 reserve 10\nclient\nclient\nbid client 1 hours 2 amount 90\nbid client 2 hours 2 amount 90\n";
    let out = Scratch::new("proposed.call", b"");
    let (status, written, errors) = run_with_input(&["propose", "-", "-o", out.name()], text);
    assert_eq!((status, written), (0, vec![]));
    let told: Vec<&str> = errors.lines().collect();
    assert_eq!(
        told,
        [
            "call: the sheet is a proposal, made by a method that is not proved; the verdict is the proved library's: accepted 1 1",
            "call: another combination is worth as much; the proposal takes bids 1",
        ]
    );
    assert_eq!(library::ask(&out.contents()).list, "accepted 1 1\n1 1 90");
    assert_eq!(run_with_input(&["propose", "-"], text).1, out.contents());
}

#[test]
fn books_that_are_refused() {
    for (call, number) in [("empty", 1), ("amount-1000001", 4), ("ninth-bid", 4)] {
        let (status, out, errors) = run(&["propose", &format!("calls/{call}.call")]);
        assert_eq!((status, out), (1, vec![]));
        assert!(
            errors.contains(&format!("question {number} refuses the book: ")),
            "{errors}"
        );
    }
}
