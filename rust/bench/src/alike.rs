//! Tests: the programs in Rust that we are measured against answer as the proved library does, over accepted, damaged and randomly
//! changed calls, and over the worst books known.

use crate::books::{KINDS, TIGHT};
use crate::calls::Call;
use crate::damage::damaged;
use crate::judging::JUDGES;
use crate::surpluses::Surpluses;
use crate::worst::BOOKS;
use crate::{book, branch, copied, plain, search, set_by_set};
use generate::Rng;
use reference::Book;

/// All 64 greatest values in Rust.
const IN_RUST: [fn(&book::Book) -> Surpluses; 4] =
    [search::surpluses::<false>, search::surpluses::<true>, set_by_set::surpluses, copied::surpluses];

/// A few bytes changed, mostly by one, and now and then the end cut off.
fn changed(rng: &mut Rng, input: &[u8]) -> Vec<u8> {
    let mut bytes = input.to_vec();
    for _ in 0..rng.index(1, 2) {
        let at = rng.index(0, bytes.len() - 1);
        bytes[at] = if rng.chance(70) { bytes[at].wrapping_add(1) } else { rng.bits() as u8 };
    }
    if rng.chance(5) {
        bytes.truncate(rng.index(0, bytes.len()));
    }
    bytes
}

/// Accepted calls over each kind of book and over the worst books.
fn accepted() -> Vec<Vec<u8>> {
    let over = |(_, bytes): &(&str, &[u8])| Call::over(Book::read(bytes).expect("the book can be read"));
    let calls = KINDS.iter().map(Call::of_kind).chain(BOOKS.iter().map(over));
    calls.map(|call| call.input()).collect()
}

/// Books of each kind and the worst ones.
fn books() -> Vec<Vec<u8>> {
    let worst = BOOKS.iter().map(|(_, bytes)| bytes.to_vec());
    KINDS.iter().map(|kind| kind.book(2)).chain(worst).collect()
}

#[test]
fn judging_is_alike() {
    let mut rng = Rng::new(7);
    let accepted = accepted();
    let mut inputs: Vec<Vec<u8>> = damaged(&Call::of_kind(&TIGHT)).into_iter().map(|(_, _, input)| input).collect();
    inputs.extend(accepted.iter().cycle().take(4_000).map(|input| changed(&mut rng, input)));
    inputs.extend(accepted);
    let mut seen = [false; 16];
    for input in inputs {
        let ours = certifier::judge_sheet(&input);
        assert_eq!(JUDGES.map(|judge| judge(&input)), [ours; 3], "{input:?}");
        seen[ours.number as usize] = true;
    }
    assert_eq!(seen, [true; 16], "some answer is never given");
}

#[test]
fn one_greatest_value_is_alike() {
    for bytes in books() {
        let book = book::read(&bytes).ok().expect("a sound book");
        for discard in [0, 1, 12, 62, 63, 64, 255] {
            let ours = certifier::greatest_value(&bytes, discard);
            for asked in [search::asked_value(&bytes, discard), set_by_set::asked_value(&bytes, discard)] {
                assert_eq!(asked.map_or(0, |value| value as u32), ours.value);
                assert_eq!(asked.err().map_or(0, u32::from), ours.number);
            }
            if ours.number == 0 {
                let others = [plain::greatest_value, branch::greatest_value];
                assert_eq!(others.map(|value| value(&book, discard) as u32), [ours.value; 2]);
            }
        }
    }
}

#[test]
fn all_greatest_values_are_alike() {
    let mut rng = Rng::new(8);
    let books = books();
    let changed = books.iter().cycle().take(4_000).map(|book| changed(&mut rng, book));
    let mut seen = [false; 6];
    for book in changed.chain(books.iter().cloned()) {
        let ours = certifier::surpluses(&book);
        seen[ours.number as usize] = true;
        for surpluses in IN_RUST {
            let answer = book::read(&book).map(|book| surpluses(&book));
            assert_eq!(answer.as_ref().map_or((0, [0; 64]), |of| (of.value, of.sigma)), (ours.value, ours.sigma), "{book:?}");
            assert_eq!(answer.err().map_or(0, u32::from), ours.number, "{book:?}");
        }
    }
    assert_eq!(seen, [true; 6], "some answer is never given");
}
