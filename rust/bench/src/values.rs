//! The table of greatest values: all 64 of full books of each kind.

use crate::book::{self, Book};
use crate::books::{Kind, KINDS, MANY};
use crate::timing::{work, Rounds, Work};
use crate::{branch, copied, plain, search, set_by_set};
use std::hint::black_box;

/// How many books a turn goes through where a program takes much longer than ours.
const FEW: u64 = 2;
/// How often the kinds take their turn, so that what else the machine does for a second or two does not fall on one of them.
const PASSES: u32 = 4;

fn all_sets(value: impl Fn(u8) -> u64) -> u64 {
    (0..64).map(value).sum()
}

/// The sum of all 64 greatest values, by the proved library in one call.
pub fn ours(book: &[u8]) -> u64 {
    let table = certifier::surpluses(black_box(book));
    64 * table.value - table.sigma.iter().sum::<u64>()
}

/// The same by the search in Rust, over a book that was read before.
fn searched(book: &Book) -> u64 {
    search::surpluses::<false>(black_box(book)).sum()
}

/// The same by the search in Rust, reading the book and putting questions 1 to 5 first.
pub fn asked(book: &[u8]) -> u64 {
    book::read(black_box(book)).map_or(0, |book| search::surpluses::<false>(&book).sum())
}

/// The same with the short cuts of ours.
pub fn asked_cut_short(book: &[u8]) -> u64 {
    book::read(black_box(book)).map_or(0, |book| search::surpluses::<true>(&book).sum())
}

/// The same by the old search.
pub fn old_asked(book: &[u8]) -> u64 {
    book::read(black_box(book)).map_or(0, |book| set_by_set::surpluses(&book).sum())
}

/// The same by our search put into Rust line by line.
pub fn copied_asked(book: &[u8]) -> u64 {
    book::read(black_box(book)).map_or(0, |book| copied::surpluses(&book).sum())
}

/// The same one by one, by the proved library and by both searches in Rust, with the questions put at each call.
fn ours_one_by_one(book: &[u8]) -> u64 {
    all_sets(|discard| u64::from(certifier::greatest_value(black_box(book), discard).value))
}

fn asked_one_by_one(book: &[u8]) -> u64 {
    all_sets(|discard| search::asked_value(black_box(book), discard).unwrap_or(0))
}

fn old_asked_one_by_one(book: &[u8]) -> u64 {
    all_sets(|discard| set_by_set::asked_value(black_box(book), discard).unwrap_or(0))
}

fn plainly(book: &Book) -> u64 {
    all_sets(|discard| plain::greatest_value(black_box(book), discard))
}

fn by_branch(book: &Book) -> u64 {
    all_sets(|discard| branch::greatest_value(black_box(book), discard))
}

/// A book as bytes, and as it was read from them, for what puts no question.
struct Given {
    bytes: Vec<u8>,
    book: Book,
}

impl Given {
    fn of(bytes: Vec<u8>) -> Given {
        let book = book::read(&bytes).unwrap_or_else(|number| panic!("a book is refused: {number}"));
        Given { bytes, book }
    }
}

type Way = fn(&Given) -> u64;

const OURS: Way = |given| ours(&given.bytes);
const WAYS: &[Way] = &[
    OURS,
    |given| searched(&given.book),
    |given| asked(&given.bytes),
    |given| old_asked(&given.bytes),
    |given| copied_asked(&given.bytes),
    |given| ours_one_by_one(&given.bytes),
    |given| asked_one_by_one(&given.bytes),
    |given| old_asked_one_by_one(&given.bytes),
    |given| asked_cut_short(&given.bytes),
];
const SLOW: &[Way] = &[OURS, |given| plainly(&given.book), |given| by_branch(&given.book)];

/// Every way must give the same sum over the books.
fn assert_alike(name: &str, books: &[Given], ways: &[Way]) {
    for book in books {
        for way in ways {
            assert_eq!(OURS(book), way(book), "greatest values differ: {name}");
        }
    }
}

/// Some rounds more of each way over all the books.
fn go_on(rounds: &mut Rounds, books: &[Given], ways: &[Way]) {
    let over_all = |&way: &Way| work(move || books.iter().map(way).sum::<u64>()) as Work;
    let works: Vec<Work> = ways.iter().map(over_all).collect();
    rounds.go_on(&works);
}

/// A kind of book, what is measured of it, and the times so far.
struct Measured {
    kind: Kind,
    many: Vec<Given>,
    few: Vec<Given>,
    rounds_of_many: Rounds,
    rounds_of_few: Rounds,
}

impl Measured {
    /// Every way must answer alike.
    fn of(kind: Kind) -> Measured {
        let given = |count: u64| kind.books(count).into_iter().map(Given::of).collect();
        let (many, few): (Vec<Given>, Vec<Given>) = (given(MANY), given(FEW));
        assert_alike(kind.name, &many, WAYS);
        assert_alike(kind.name, &few, SLOW);
        Measured { kind, many, few, rounds_of_many: Rounds::default(), rounds_of_few: Rounds::default() }
    }

    fn go_on(&mut self) {
        go_on(&mut self.rounds_of_many, &self.many, WAYS);
        go_on(&mut self.rounds_of_few, &self.few, SLOW);
    }

    fn print(&self) {
        let [plain, branch] = [1, 2].map(|other| self.rounds_of_few.ratio(0, other));
        let [search, asked, cut_short, old, copied] = [1, 2, 8, 3, 4].map(|other| self.rounds_of_many.ratio(0, other));
        let [single, single_old] = [6, 7].map(|other| self.rounds_of_many.ratio(5, other));
        print!("{:22}{plain:>10.4}{branch:>8.2}{old:>8.2}", self.kind.name);
        println!("{search:>8.2}{asked:>8.2}{cut_short:>8.2}{copied:>14.2}{single_old:>10.2}{single:>8.2}");
    }
}

pub fn table() {
    println!("All 64 greatest values of full books, a book at a call: our time over that in Rust of the plain recursion, of a branch");
    println!("and bound, of the old search, of the same search, without questions, asked, and asked with the short cuts that ours has,");
    println!("and of ours put into Rust line by line; and of one value at a call, over the old search and over the same search. But for the");
    println!("first two, and the same search once, all read the book and put questions 1 to 5 at each call, as ours does.");
    println!();
    println!("{:22}{:>10}{:>8}{:>8}{:>24}{:>14}{:>18}", "", "", "", "", "the same search", "", "one by one");
    let [a, b, c, d, e, f, g] = ["plain", "branch", "old", "", "asked", "cuts", "line by line"];
    println!("{:22}{a:>10}{b:>8}{c:>8}{d:>8}{e:>8}{f:>8}{g:>14}{c:>10}{:>8}", "kind of book", "same");
    let mut kinds = KINDS.map(Measured::of);
    for _ in 0..PASSES {
        kinds.iter_mut().for_each(Measured::go_on);
    }
    kinds.iter().for_each(Measured::print);
}
