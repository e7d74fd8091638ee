//! The ways to misprice, each with a sheet that a certifier with that fault would pass.

use generate::by_hand::{book_a, hex, sheet_a, x, S, W};
use reference::{judge, Book, Sheet, Weights};

#[test]
fn distance_from_the_capped_maximum() {
    // Call D: 12.5 and 2.5, each 2.5 from the lesser of ρ and σ.
    let mut book = book_a();
    book[6] = 20;
    book[23] = 25;
    let sheet = S {
        q: 2,
        winners: vec![x(25), x(5)],
        g: 5,
        ..sheet_a()
    };
    assert_eq!(judge(&sheet.after(&book)).number, 14);
    // R would mend the balance, but the second winner is not at its reserve.
    let sheet = S {
        winners: vec![
            x(25),
            W {
                x: 5,
                r: 20,
                ..W::default()
            },
        ],
        ..sheet
    };
    assert_eq!(judge(&sheet.after(&book)).number, 15);
}

#[test]
fn sigma_of_a_set_as_a_sum_and_sets_only_with_a_multiplier() {
    // Call A priced 20 and 10: every multiplier stands on a single winner.
    let sheet = S {
        winners: vec![x(40), x(40)],
        g: 0,
        sets: vec![(1, 1, 0), (2, 1, 0)],
        ..sheet_a()
    };
    assert_eq!(judge(&sheet.after(&book_a())).number, 11);
}

/// Four kinds with one hour each. Clients 1, 2 and 4 win one kind each with 50, 50 and 5; client 3
/// offers 60 for the first two. Client 1 also offers 1 for the kind left over, a bid that its
/// discount lowers to zero, so that it may count as winning beside client 3.
fn book_with_a_bid_lowered_to_zero() -> Vec<u8> {
    hex(
        "01 0043 04 01 0000 01 0000 01 0000 01 0000 04 00 00 00 00 05
         01 01 00 00 00 00000032
         02 00 01 00 00 00000032
         03 01 01 00 00 0000003C
         04 00 00 00 01 00000005
         01 00 00 01 00 00000001",
    )
}

#[test]
fn sets_that_the_process_happens_to_add() {
    let book = book_with_a_bid_lowered_to_zero();
    // Each winner alone and all three together keep their bounds; the first two do not: 45 for 40.
    let sheet = S {
        bids: vec![1, 2, 4],
        q: 1,
        s: 1,
        winners: vec![x(40), x(5), x(0)],
        g: 0,
        sets: vec![(7, 1, 0)],
    };
    assert_eq!(judge(&sheet.after(&book)).number, 11);

    let weights = Weights::of(&Book::read(&book).unwrap(), &[1, 2, 4]);
    assert_eq!(weights.sigma, [0, 40, 39, 40, 5, 45, 44, 45]);
    let sheet = Sheet::read(&sheet.bytes()).unwrap();
    let broken: Vec<usize> = (sheet.set_numbers())
        .filter(|&set| sheet.x_sum(set) > weights.sigma[set])
        .collect();
    assert_eq!(broken, [3]);
}

#[test]
fn a_withdrawn_clients_bid() {
    // Call C's book with call A's sheet: the withdrawn bid in every σ would pass it.
    let mut book = book_a();
    book[10] = 1;
    assert_eq!(judge(&sheet_a().after(&book)).number, 13);
    // In the σ of single winners, but not of both: 40, 40 and 110.
    let sheet = S {
        winners: vec![x(40), x(40)],
        g: 0,
        sets: vec![(1, 1, 0), (2, 1, 0)],
        ..sheet_a()
    };
    assert_eq!(judge(&sheet.after(&book)).number, 13);
}
