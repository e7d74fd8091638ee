//! Each refusal is explained with a place, in the question's own words, and the library leads.

use call::asked::question;
use call::explain::{explain, explain_reply, places};
use call::library;
use compare::Example;
use generate::Rng;
use std::fs;
use std::path::{Path, PathBuf};

fn root() -> PathBuf {
    Path::new(env!("CARGO_MANIFEST_DIR")).join("../..")
}

/// Where an explanation says that something is wrong, and by how much.
fn names_a_place(number: u32, place: &str) -> bool {
    let starts: &[&str] = match number {
        1..=3 | 6..=7 => &["byte "],
        4 => &["byte ", "client "],
        5 => &["bid "],
        8 => &["byte ", "the winners from byte "],
        9 => &["the winners' bids "],
        10 | 12 | 14 => &["winner "],
        11 => &["set "],
        13 => &["q (sum of Y σ + sum of Z ρ) = "],
        _ => &["set ", "winner "],
    };
    starts.iter().any(|start| place.starts_with(start))
        && place.contains(|c: char| c.is_ascii_digit())
}

#[test]
fn every_number_has_places() {
    let mut rng = Rng::new(31);
    let mut reached = [0; 16];
    for _ in 0..25 {
        let example = Example::small(&mut rng);
        for input in example.some_inputs(&mut rng, 1_500) {
            let explained = explain(&input.bytes);
            let number = library::ask(&input.bytes).number;
            reached[number as usize] += 1;
            assert_eq!(explained.accepted, number == 0);
            assert!(!explained.text.contains("ATTENTION"), "{}", explained.text);
            let found = places(number, &input.bytes);
            if number > 0 {
                assert!(
                    names_a_place(number, found.first().map_or("", |place| &place.words)),
                    "{}",
                    explained.text
                );
            }
        }
    }
    println!("{reached:?}");
    assert!(reached.iter().all(|&count| count > 0), "{reached:?}");
}

#[test]
fn no_place_is_found_where_the_answer_is_yes() {
    let mut rng = Rng::new(32);
    for _ in 0..100 {
        let input = Example::small(&mut rng).bytes();
        for number in 0..=17 {
            assert_eq!(places(number, &input), [], "question {number}");
        }
    }
}

/// Questions before the refusal have no place either: each is looked for by itself.
#[test]
fn no_place_is_found_before_the_refusal() {
    let mut rng = Rng::new(33);
    for _ in 0..10 {
        let example = Example::small(&mut rng);
        for input in example.some_inputs(&mut rng, 300) {
            let refused = library::ask(&input.bytes).number;
            for number in 1..refused {
                assert_eq!(
                    places(number, &input.bytes),
                    [],
                    "{number} before {refused}"
                );
            }
        }
    }
}

#[test]
fn worked_calls_are_explained() {
    for entry in fs::read_dir(root().join("calls")).unwrap() {
        let path = entry.unwrap().path();
        if path
            .extension()
            .is_some_and(|extension| extension == "call")
        {
            let expected = fs::read_to_string(path.with_extension("expected")).unwrap();
            let explained = explain(&fs::read(&path).unwrap());
            let list = expected.trim_end().replace('\n', "\n    ");
            let start = format!("The proved library's answer, which alone counts:\n    {list}\n");
            assert!(
                explained.text.starts_with(&start),
                "{path:?}: {}",
                explained.text
            );
            assert_eq!(explained.accepted, expected.starts_with("accepted"));
        }
    }
}

#[test]
fn the_spring_calls() {
    let stale = explain(&fs::read(root().join("calls/spring-stale.call")).unwrap()).text;
    assert!(
        stale.contains("q (sum of Y σ + sum of Z ρ) = 1 × (90 + 0) = 90\n"),
        "{stale}"
    );
    assert!(stale.contains("s (sum of X) = 1 × 20 = 20\n"), "{stale}");
    assert!(stale.contains("the first is 70 more"), "{stale}");
    let right = explain(&fs::read(root().join("calls/spring.call")).unwrap()).text;
    assert!(
        right.contains("client 1 pays 20 credits for bid 1, which offered 90\n"),
        "{right}"
    );
}

#[test]
fn a_difference_is_told_loudly_and_the_library_leads() {
    let input = fs::read(root().join("calls/E.call")).unwrap();
    let reply = library::ask(&input);
    let explained = explain_reply(&input, &reply, "accepted 2 1\n1 1 39\n2 2 30");
    assert!(explained.text.contains(
        "ATTENTION: the second implementation differs. It answers\n    accepted 2 1\n    1 1 39\n"
    ));
    assert!(explained.text.contains("The library's answer stands."));
    assert!(!explained.accepted && explained.text.contains("Question 11"));
    let other = library::Reply {
        number: 12,
        list: "refused 12".to_string(),
        ..reply
    };
    let explained = explain_reply(&input, &other, "refused 11");
    assert!(explained.text.contains("ATTENTION") && explained.text.contains("Question 12"));
    assert!(
        explained.text.contains("finds nothing wrong"),
        "{}",
        explained.text
    );
}

#[test]
fn the_questions_are_worded_as_on_their_page() {
    let page = fs::read_to_string(root().join("docs/FORMAT.md")).unwrap();
    let page = page.split_whitespace().collect::<Vec<_>>().join(" ");
    for number in 1..=15 {
        let words = question(number).unwrap();
        assert!(
            page.contains(&format!("{number}. {words}")),
            "question {number}"
        );
    }
    assert_eq!((question(0), question(16)), (None, None));
}
