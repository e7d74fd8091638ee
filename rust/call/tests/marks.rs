//! The figures that `show` marks are those of the question that the library refuses with, and of no earlier one.

use call::library;
use call::show::show;
use compare::Example;
use generate::Rng;

/// The questions with a marked figure, by the lines that have one.
fn marked(text: &str) -> Vec<u32> {
    let mut heading = 0;
    let mut questions = Vec::new();
    for line in text.lines() {
        let number = line
            .strip_prefix("# ")
            .and_then(|rest| rest.split_once(':'));
        heading = number.map_or(heading, |(number, _)| number.parse().unwrap_or(heading));
        let question = match line.split(' ').next() {
            Some("bid") => 5,
            Some("winner") => 8,
            Some("set") => 11,
            _ => heading,
        };
        if line.contains('!') && !line.contains("'!'") {
            questions.push(question);
        }
    }
    questions
}

#[test]
fn marks_and_refusals() {
    let mut rng = Rng::new(51);
    let mut reached = [0; 16];
    for _ in 0..15 {
        let example = Example::small(&mut rng);
        for input in example.some_inputs(&mut rng, 1_000) {
            let number = library::ask(&input.bytes).number;
            reached[number as usize] += 1;
            check(number, &show(&input.bytes).text);
        }
    }
    assert!(
        [0, 5, 9, 10, 11, 12, 13, 14, 15]
            .iter()
            .all(|&number| reached[number] > 0),
        "{reached:?}"
    );
}

/// Questions 3, 4, 6 and 7 mark nothing, and 8 only a bid that is not there.
fn check(number: u32, text: &str) {
    let marked = marked(text);
    let first = marked.iter().min().copied();
    match number {
        0 => assert_eq!(first, None, "{text}"),
        5 | 9..=15 => assert_eq!(first, Some(number), "{text}"),
        6..=8 => assert!(first != Some(5), "{text}"),
        _ => {}
    }
}
