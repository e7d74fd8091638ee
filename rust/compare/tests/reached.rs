//! The inputs reach every number, the fixed ones are answered as they must be, and a difference is
//! told.

use compare::{calls, edges, inputs, rounds, Certifier, Comparison, Counts, Example, Printer};
use generate::Rng;
use reference::{book_refusal, greatest_value, judge, price_list, Answer};
use std::path::Path;

/// The reference against itself, as a library and as a program.
struct Same;

impl Certifier for Same {
    fn judge(&self, input: &[u8]) -> Answer {
        judge(input)
    }

    fn greatest_value(&self, book: &[u8], discard: u8) -> (u8, u64) {
        greatest_value(book, discard)
    }

    fn price_list(&self, input: &[u8]) -> String {
        price_list(input)
    }
}

impl Printer for Same {
    fn print(&self, input: &[u8]) -> Vec<u8> {
        price_list(input).into_bytes()
    }
}

fn compared(mut comparison: Comparison, seed: u64, count: usize) -> Result<Counts, String> {
    rounds::rounds(&mut comparison, &mut Rng::new(seed), count)?;
    Ok(comparison.counts)
}

#[test]
fn every_number_is_reached() {
    let counts = compared(Comparison::with(&Same), 4, 40).unwrap();
    println!("{counts}");
    assert_eq!(counts.tally.missing(16), Vec::<usize>::new());
    assert_eq!(counts.tally.count(), counts.calls + counts.values);
}

#[test]
fn the_fixed_cases_are_answered_as_they_must_be() {
    let mut comparison = Comparison::with(&Same).and_program(&Same, u64::MAX);
    edges::put(&mut comparison).unwrap();
    let of_edges = edges::calls().len() as u64;
    assert_eq!(comparison.counts.calls, of_edges);
    assert_eq!(comparison.counts.tally.missing(16), Vec::<usize>::new());
    let directory = Path::new(concat!(env!("CARGO_MANIFEST_DIR"), "/../../calls"));
    calls::put(&mut comparison, directory).unwrap();
    assert!(comparison.counts.calls > of_edges + 20);
    assert_eq!(comparison.counts.printed.count(), comparison.counts.calls);
}

/// One that gives the wrong number where question 14 says no.
struct Wrong;

impl Certifier for Wrong {
    fn judge(&self, input: &[u8]) -> Answer {
        let answer = judge(input);
        match answer.number {
            14 => judge(&[]),
            _ => answer,
        }
    }

    fn greatest_value(&self, book: &[u8], discard: u8) -> (u8, u64) {
        greatest_value(book, discard)
    }

    fn price_list(&self, input: &[u8]) -> String {
        price_list(input)
    }
}

impl Printer for Wrong {
    fn print(&self, input: &[u8]) -> Vec<u8> {
        price_list(input).trim_end().as_bytes().to_vec()
    }
}

#[test]
fn a_difference_is_told() {
    let difference = compared(Comparison::with(&Wrong), 5, 5).unwrap_err();
    assert!(difference.contains("number: 14"), "{difference}");
    assert!(difference.contains("number: 1,"), "{difference}");
    let comparison = Comparison::with(&Same).and_program(&Wrong, 1);
    let difference = compared(comparison, 5, 5).unwrap_err();
    assert!(difference.contains("the program"), "{difference}");
}

#[test]
fn the_answers_agree_with_each_other() {
    let mut rng = Rng::new(6);
    for _ in 0..15 {
        let example = Example::small(&mut rng);
        for input in inputs(&mut rng, &example) {
            agree(&input.bytes);
        }
    }
}

/// The answer, the text, the book's refusal and the greatest value of one input.
fn agree(input: &[u8]) {
    let answer = judge(input);
    let list = price_list(input);
    if answer.number == 0 {
        let start = format!("accepted {} {}\n", answer.w, answer.q);
        assert!(list.starts_with(&start));
        assert_eq!(list.lines().count(), 1 + usize::from(answer.w));
        for (line, price) in list.lines().skip(1).zip(answer.prices) {
            assert!(line.ends_with(&format!(" {price}")));
        }
    } else {
        let refused = Answer {
            number: answer.number,
            ..Answer::default()
        };
        assert_eq!(answer, refused);
        assert_eq!(list, format!("refused {}\n", answer.number));
    }
    let of_book = book_refusal(input);
    assert_eq!(of_book, if answer.number <= 5 { answer.number } else { 0 });
    let greatest = greatest_value(input, 0);
    assert_eq!(greatest.0, of_book);
    assert!(of_book == 0 || greatest.1 == 0);
}
