//! Assemble after show gives the same bytes, wherever questions 1, 2 and 6 are answered yes.

use call::assemble::assemble;
use call::explain::{explain, places};
use call::parts::{book_of, sheet_of};
use call::show::show;
use compare::{inputs, Example};
use generate::{write, Rng};
use reference::sheet::Winner;
use reference::{Bid, Book, Multipliers, Sheet};

/// Whether questions 1, 2 and 6 are answered yes, or nothing follows a book that passes 1 and 2.
fn is_whole(input: &[u8]) -> bool {
    book_of(input).is_some_and(|part| part.rest.is_empty() || sheet_of(&part).is_some())
}

/// Shows and assembles an input; says whether it was whole.
fn round_trip(input: &[u8]) -> bool {
    let shown = show(input);
    if is_whole(input) {
        assert_eq!(shown.stopped, None, "{input:?}");
        assert_eq!(
            assemble(shown.text.as_bytes()),
            Ok(input.to_vec()),
            "{}",
            shown.text
        );
        return true;
    }
    let stopped = shown.stopped.expect("a reason");
    let start = stopped.split(": byte ").next().unwrap_or("");
    let questions = [1, 2, 6].map(|number| format!("question {number} stops it"));
    assert!(
        questions.iter().any(|question| question == start),
        "{stopped}"
    );
    let byte: usize = digits_after(&stopped, ": byte ");
    assert!(
        byte <= input.len() || stopped.contains("is outside the book"),
        "{stopped}"
    );
    false
}

fn digits_after(text: &str, start: &str) -> usize {
    let after = text.split(start).nth(1).expect("the words");
    let digits: String = after.chars().take_while(char::is_ascii_digit).collect();
    digits.parse().expect("a number")
}

#[test]
fn generated_calls() {
    let (whole, stopped) = of_examples(11, 30);
    assert!(whole > 5_000 && stopped > 2_000);
}

/// Run by hand: `cargo test --release -p call --test round_trips -- --ignored --nocapture`.
#[test]
#[ignore]
fn many_more_generated_calls() {
    let (whole, stopped) = of_examples(16, 600);
    println!("{whole} the same, {stopped} stopped");
}

/// Round trips of the inputs from so many examples: how many came back the same, and how many were stopped.
fn of_examples(seed: u64, rounds: usize) -> (usize, usize) {
    let mut rng = Rng::new(seed);
    let (mut whole, mut stopped) = (0, 0);
    for round in 0..rounds {
        let (example, count) = match round % 3 {
            2 => (Example::any(&mut rng), 400),
            _ => (Example::small(&mut rng), usize::MAX),
        };
        let inputs = example.some_inputs(&mut rng, count);
        let same = inputs
            .iter()
            .filter(|input| round_trip(&input.bytes))
            .count();
        whole += same;
        stopped += inputs.len() - same;
    }
    (whole, stopped)
}

#[test]
fn any_number_in_any_field() {
    let mut rng = Rng::new(12);
    for _ in 0..2_000 {
        let book = any_book(&mut rng);
        let sheet = any_sheet(&mut rng, book.status.len());
        let input = write::input(&book, &sheet);
        assert!(round_trip(&input));
        look_everywhere(&input);
    }
}

/// Looks for places of every question, whichever the library refuses with.
fn look_everywhere(input: &[u8]) {
    for number in 0..=17 {
        let _ = places(number, input);
    }
    assert!(!explain(input).text.contains("ATTENTION"));
}

fn any_book(rng: &mut Rng) -> Book {
    let (k, n, m) = (rng.index(1, 4), rng.index(1, 6), rng.index(0, 48));
    let mut numbers = |count: usize, bits: u32| {
        (0..count)
            .map(|_| any_number(rng, bits))
            .collect::<Vec<_>>()
    };
    let (supply, reserve, status) = (numbers(k, 8), numbers(k, 16), numbers(n, 8));
    let bids = (0..m).map(|_| Bid {
        client: any_number(rng, 8) as usize,
        hours: (0..k).map(|_| any_number(rng, 8)).collect(),
        amount: any_number(rng, 32),
    });
    Book {
        bids: bids.collect(),
        supply,
        reserve,
        status,
    }
}

fn any_sheet(rng: &mut Rng, n: usize) -> Sheet {
    let w = rng.index(0, n);
    let winners = (0..w).map(|_| Winner {
        bid: any_number(rng, 8) as usize,
        x: any_number(rng, 64),
        z: any_number(rng, 32),
        r: any_number(rng, 64),
        t: any_number(rng, 64),
    });
    let winners = winners.collect();
    let sets = (1..1 << w).map(|_| Multipliers {
        y: any_number(rng, 32),
        u: any_number(rng, 64),
    });
    Sheet {
        winners,
        sets: std::iter::once(Multipliers::default())
            .chain(sets)
            .collect(),
        q: any_number(rng, 32),
        s: any_number(rng, 32),
        g: any_number(rng, 64) - (1 << 63),
    }
}

/// Small numbers, the greatest ones and those between.
fn any_number(rng: &mut Rng, bits: u32) -> i128 {
    let most = (1 << bits) - 1;
    match rng.index(0, 3) {
        0 => rng.range(0, 2),
        1 => most - rng.range(0, 2),
        _ => i128::from(rng.bits()) & most,
    }
}

#[test]
fn greatest_numbers_over_a_sound_book() {
    let mut rng = Rng::new(13);
    for _ in 0..40 {
        let mut example = Example::small(&mut rng);
        let sheet = &mut example.sheet;
        (sheet.q, sheet.s, sheet.g) = (0xffff_ffff, 0xffff_ffff, i64::MIN.into());
        for winner in &mut sheet.winners {
            (winner.x, winner.z, winner.r, winner.t) = (
                u64::MAX.into(),
                u32::MAX.into(),
                u64::MAX.into(),
                u64::MAX.into(),
            );
        }
        for set in &mut sheet.sets[1..] {
            (set.y, set.u) = (u32::MAX.into(), u64::MAX.into());
        }
        assert!(round_trip(&example.bytes()));
        look_everywhere(&example.bytes());
    }
}

#[test]
fn a_book_alone() {
    let mut rng = Rng::new(14);
    for _ in 0..50 {
        let example = Example::small(&mut rng);
        let book = write::book(&example.book);
        let shown = show(&book);
        assert_eq!(shown.stopped, None);
        assert_eq!(assemble(shown.text.as_bytes()), Ok(book));
    }
}

#[test]
fn every_input_of_one_example_is_met() {
    let mut rng = Rng::new(15);
    let example = Example::small(&mut rng);
    assert!(
        inputs(&mut rng, &example)
            .iter()
            .filter(|input| round_trip(&input.bytes))
            .count()
            > 100
    );
}
