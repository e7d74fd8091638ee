//! The files that crates/vectors is run on are those that this crate writes, and the program's buffer holds them.

use std::collections::HashSet;
use std::fs::read_to_string;

fn stored(name: &str) -> String {
    read_to_string(format!("{}/../../crates/vectors/{name}", env!("CARGO_MANIFEST_DIR"))).expect("the file can be read")
}

#[test]
fn stored_as_written() {
    let (given, answered) = vectors::texts();
    assert!(given == stored("stdin"), "crates/vectors/stdin is not what rust/vectors writes");
    assert!(answered == stored("stdout"), "crates/vectors/stdout is not what rust/vectors writes");
}

#[test]
fn fit_the_program() {
    let (given, _) = vectors::texts();
    assert!(given.len() <= 65_536, "{} bytes are more than the program reads", given.len());
    let lines = vectors::lines();
    assert!(lines.iter().all(|line| line.bytes.len() <= 4_096 && !line.label.contains(':')));
}

#[test]
fn each_line_once_and_each_operation_tried() {
    let lines = vectors::lines();
    let heads: HashSet<(char, &str)> = lines.iter().map(|line| (line.letter, &line.label[..])).collect();
    assert_eq!(heads.len(), lines.len(), "two lines have one name");
    let letters: HashSet<char> = lines.iter().map(|line| line.letter).collect();
    assert_eq!(letters, "bwdqRGDTJFfScarlhtsguWO".chars().collect());
}

/// The answers' first numbers: each that an operation over a value can refuse with is among them.
#[test]
fn each_number_is_answered() {
    let (_, answered) = vectors::texts();
    let first = |letter: &'static str| -> HashSet<u32> {
        let own = answered.lines().filter(move |line| line.starts_with(letter));
        own.map(|line| line.rsplit(": ").next().unwrap().split(' ').next().unwrap().parse().unwrap()).collect()
    };
    assert_eq!(first("J"), (0..=15).collect());
    assert_eq!(first("O"), [0].into_iter().chain(2..=15).collect());
    assert_eq!(first("W"), [0, 2, 3, 4, 5, 8, 9].into());
    assert_eq!(first("g"), [0, 2, 3, 4, 5, 16].into());
    assert_eq!(first("u"), [0, 2, 3, 4, 5, 16].into());
    assert_eq!(first("S"), [0, 2, 3, 4, 5].into());
    assert_eq!(first("R"), (0..=5).collect());
    assert_eq!(first("F"), [0, 6].into());
}
