//! v and σ of the clients' sets, which `show` gives of a book alone, are those of the second implementation.

use call::show::show;
use generate::{small_book, write, Rng};
use reference::combinations::Values;
use reference::Book;

#[test]
fn sets_of_clients() {
    let mut rng = Rng::new(61);
    for _ in 0..200 {
        let book = small_book(&mut rng);
        let shown = show(&write::book(&book));
        assert_eq!(shown.stopped, None);
        let n = book.status.len();
        let values = Values::of(&book);
        assert!(
            shown
                .text
                .contains(&format!("\n# v = {}\n", values.greatest_without(0))),
            "{}",
            shown.text
        );
        let lines = shown
            .text
            .lines()
            .filter(|line| line.starts_with("#     set "));
        let lines: Vec<&str> = lines.collect();
        assert_eq!(lines.len(), (1 << n) - 1);
        for (at, line) in lines.iter().enumerate() {
            assert_eq!(*line, expected(&values, at + 1, n), "{}", shown.text);
        }
    }
}

fn expected(values: &Values, set: usize, n: usize) -> String {
    let members: Vec<String> = (1..=n)
        .filter(|c| set >> (c - 1) & 1 == 1)
        .map(|c| c.to_string())
        .collect();
    let word = if members.len() == 1 {
        "client"
    } else {
        "clients"
    };
    let (v, without) = (values.greatest_without(0), values.greatest_without(set));
    format!(
        "#     set {set}, {word} {}: {v} - {without} = {}",
        members.join(" "),
        v - without
    )
}

#[test]
fn an_unsound_book_has_none() {
    let book = Book {
        supply: vec![201],
        reserve: vec![0],
        status: vec![0],
        bids: Vec::new(),
    };
    let text = show(&write::book(&book)).text;
    assert!(
        text.contains("# The book is not sound, so there is no v and no σ.\n"),
        "{text}"
    );
    assert!(!text.contains("# v = "), "{text}");
}
