//! Calls A to J.

use generate::by_hand::{book_a, book_i, hex, sheet_a, sheet_i, x, S, W};
use reference::{greatest_value, judge, price_list, Answer, Book, Weights};

fn assert_accepted(input: &[u8], w: u8, q: u32, prices: [u64; 6], list: &str) {
    let accepted = Answer {
        number: 0,
        w,
        q,
        prices,
    };
    assert_eq!(judge(input), accepted);
    assert_eq!(price_list(input), list);
}

fn assert_refused(input: &[u8], number: u8) {
    let refused = Answer {
        number,
        w: 0,
        q: 0,
        prices: [0; 6],
    };
    assert_eq!(judge(input), refused);
    assert_eq!(price_list(input), format!("refused {number}\n"));
}

/// σ by set number, from 1, and ρ by winner.
fn weights(book: &[u8], winners: &[usize]) -> (i128, Vec<i128>, Vec<i128>) {
    let weights = Weights::of(&Book::read(book).unwrap(), winners);
    (weights.v, weights.sigma[1..].to_vec(), weights.rho)
}

#[test]
fn call_a() {
    // The whole input in hex, so that the writer of the other calls is checked too.
    let sheet = hex("01 0072 02 01 02 00000001 00000001
         0000000000000014 00000000 0000000000000000 0000000000000000
         0000000000000014 00000000 0000000000000000 0000000000000000
         0000000000000014
         00000000 0000000000000000
         00000000 0000000000000000
         00000001 0000000000000000");
    assert_eq!(sheet_a().bytes(), sheet);
    let input = [book_a(), sheet].concat();
    let list = "accepted 2 1\n1 1 40\n2 2 30\n";
    assert_accepted(&input, 2, 1, [40, 30, 0, 0, 0, 0], list);
    let (v, sigma, rho) = weights(&book_a(), &[1, 2]);
    assert_eq!((v, sigma, rho), (110, vec![40, 40, 40], vec![50, 40]));
}

#[test]
fn call_b() {
    let mut book = book_a();
    book[29] = 71;
    assert_eq!(weights(&book, &[1, 2]).1, [39, 39, 39]);
    let sheet = S {
        q: 2,
        winners: vec![x(39), x(39)],
        g: 39,
        ..sheet_a()
    };
    let list = "accepted 2 2\n1 1 81\n2 2 61\n";
    assert_accepted(&sheet.after(&book), 2, 2, [81, 61, 0, 0, 0, 0], list);
}

#[test]
fn call_c() {
    let mut book = book_a();
    book[10] = 1;
    assert_eq!(weights(&book, &[1, 2]).1, [60, 50, 110]);
    let z = |x| W {
        x,
        z: 1,
        ..W::default()
    };
    let sheet = S {
        winners: vec![z(50), z(40)],
        g: 10,
        sets: vec![],
        ..sheet_a()
    };
    let list = "accepted 2 1\n1 1 10\n2 2 10\n";
    assert_accepted(&sheet.after(&book), 2, 1, [10, 10, 0, 0, 0, 0], list);
}

/// The book of call D.
fn book_d() -> Vec<u8> {
    let mut book = book_a();
    book[6] = 20;
    book[23] = 25;
    book
}

#[test]
fn call_d() {
    let (_, sigma, rho) = weights(&book_d(), &[1, 2]);
    assert_eq!((sigma, rho), (vec![15, 15, 15], vec![40, 5]));
    let second = W {
        x: 5,
        r: 5,
        ..W::default()
    };
    let sheet = S {
        winners: vec![x(10), second],
        g: 5,
        ..sheet_a()
    };
    let list = "accepted 2 1\n1 1 50\n2 2 20\n";
    assert_accepted(&sheet.after(&book_d()), 2, 1, [50, 20, 0, 0, 0, 0], list);
}

#[test]
fn calls_e_f_and_g() {
    for (discounts, number) in [([21, 20], 11), ([20, 19], 13), ([40, 0], 14)] {
        let sheet = S {
            winners: discounts.map(x).to_vec(),
            ..sheet_a()
        };
        assert_refused(&sheet.after(&book_a()), number);
    }
}

#[test]
fn call_h() {
    let sheet = S {
        bids: vec![3],
        winners: vec![x(0)],
        g: 0,
        sets: vec![],
        ..sheet_a()
    };
    assert_refused(&sheet.after(&book_a()), 9);
}

#[test]
fn call_i() {
    let sheet = hex("01 0014 00 00000001 00000001 0000000000000000");
    assert_eq!(sheet_i().bytes(), sheet);
    let input = [book_i(), sheet].concat();
    assert_accepted(&input, 0, 1, [0; 6], "accepted 0 1\n");
}

#[test]
fn call_j() {
    assert_eq!(greatest_value(&book_a(), 4), (0, 110));
    assert_eq!(greatest_value(&book_a(), 8), (16, 0));
}
