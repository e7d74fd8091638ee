//! Each field stands where the layout says, and v and σ are the reference's too.

use call::parts::{book_of, sheet_of, weights_of, SheetPart};
use compare::Example;
use generate::Rng;
use reference::bytes::number;

fn examples() -> Vec<Example> {
    let mut rng = Rng::new(21);
    (0..200).map(|_| Example::small(&mut rng)).collect()
}

#[test]
fn fields_of_books() {
    for example in examples() {
        let input = example.bytes();
        let part = book_of(&input).unwrap();
        let at = |place, width| number(&input, place, width).unwrap();
        for kind in 0..part.book.supply.len() {
            assert_eq!(at(part.at.supply(kind), 1), part.book.supply[kind]);
            assert_eq!(at(part.at.reserve(kind), 2), part.book.reserve[kind]);
        }
        for (client, &status) in part.book.status.iter().enumerate() {
            assert_eq!(at(part.at.status(client), 1), status);
        }
        for (place, bid) in part.book.bids.iter().enumerate() {
            assert_eq!(at(part.at.bid(place), 1), bid.client as i128);
            assert_eq!(at(part.at.hours(place, 0), 1), bid.hours[0]);
            assert_eq!(at(part.at.amount(place), 4), bid.amount);
        }
    }
}

#[test]
fn fields_of_sheets() {
    for example in examples() {
        let input = example.bytes();
        let part = book_of(&input).unwrap();
        let SheetPart { sheet, at: places } = sheet_of(&part).unwrap();
        let at = |place, width| number(&input, place, width).unwrap();
        assert_eq!((at(places.q(), 4), at(places.s(), 4)), (sheet.q, sheet.s));
        for (j, winner) in sheet.winners.iter().enumerate() {
            assert_eq!(at(places.bid(j), 1), winner.bid as i128);
            assert_eq!(
                (at(places.x(j), 8), at(places.z(j), 4)),
                (winner.x, winner.z)
            );
            assert_eq!(
                (at(places.r(j), 8), at(places.t(j), 8)),
                (winner.r, winner.t)
            );
        }
        assert_eq!(at(places.g(), 8) as u64 as i64, sheet.g as i64);
        for set in sheet.set_numbers() {
            let of = &sheet.sets[set];
            assert_eq!((at(places.y(set), 4), at(places.u(set), 8)), (of.y, of.u));
        }
        assert_eq!(places.g() + 8 + 12 * (sheet.sets.len() - 1), input.len());
    }
}

#[test]
fn weights_of_the_library_and_of_the_reference() {
    for example in examples() {
        let weights = weights_of(&example.bytes(), &example.book, &example.sheet);
        assert_eq!(weights.as_ref(), Some(&example.weights));
    }
}
