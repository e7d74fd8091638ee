//! The JSON of a call, parsed back by another parser than the one that wrote it, says what the library and the second
//! implementation say.

mod common;
#[path = "common/parser.rs"]
mod parser;

use call::asked::question;
use call::explain::places;
use call::json::Json;
use call::library;
use call::report::{report, NAMES};
use common::{root, run, shell, Scratch};
use compare::Example;
use generate::Rng;
use parser::{parse, Value};
use reference::{Book, Sheet, Weights};
use std::fs;

fn reported(input: &[u8]) -> Value {
    parse(&report(input).to_string())
}

#[test]
fn strings_and_numbers() {
    let odd = "σ \"×\" \\ \u{1}\n\t";
    let written = Json::List(vec![
        odd.into(),
        i128::MIN.into(),
        i128::MAX.into(),
        Json::Null,
        true.into(),
    ]);
    let expected = vec![
        Value::Text(odd.to_string()),
        Value::Number(i128::MIN),
        Value::Number(i128::MAX),
        Value::Null,
        Value::Bool(true),
    ];
    assert_eq!(parse(&written.to_string()), Value::List(expected));
    assert_eq!(
        parse(&Json::Object(vec![]).to_string()),
        Value::Object(Default::default())
    );
}

/// The answer is the library's, whatever the input; a refusal has its question and its places.
#[test]
fn answers_and_places() {
    let mut rng = Rng::new(81);
    let mut reached = [0; 16];
    for _ in 0..12 {
        let example = Example::small(&mut rng);
        for input in example.some_inputs(&mut rng, 800) {
            let reply = library::ask(&input.bytes);
            let said = reported(&input.bytes);
            reached[reply.number as usize] += 1;
            assert_eq!(said.at("form").number(), 1);
            assert_eq!(said.at("number").number(), i128::from(reply.number));
            let lines: Vec<&str> = said.at("lines").list().iter().map(Value::text).collect();
            assert_eq!(lines.join("\n"), reply.list);
            assert_eq!(said.at("agreed"), &Value::Bool(true));
            let answer = if reply.number == 0 {
                "accepted"
            } else {
                "refused"
            };
            assert_eq!(said.at("answer").text(), answer);
            check_refusal(said.at("refusal"), reply.number, &input.bytes);
        }
    }
    assert!(reached.iter().all(|&count| count > 0), "{reached:?}");
}

fn check_refusal(said: &Value, number: u32, input: &[u8]) {
    if number == 0 {
        return assert_eq!(said, &Value::Null);
    }
    assert_eq!(said.at("question").text(), question(number).unwrap());
    let found = places(number, input);
    let said = said.at("places").list();
    assert_eq!(said.len(), found.len());
    assert!(!said.is_empty());
    for (said, place) in said.iter().zip(&found) {
        assert_eq!(said.at("words").text(), place.words.trim());
        for (name, figure) in &place.facts {
            assert!(NAMES.contains(name), "{name}");
            assert_eq!(said.at(name).number(), *figure);
        }
        assert!(!place.facts.is_empty(), "{place:?}");
    }
}

/// Every figure of an accepted call, from the second implementation.
#[test]
fn figures() {
    let mut rng = Rng::new(82);
    for _ in 0..150 {
        let example = Example::small(&mut rng);
        let said = reported(&example.bytes());
        let (book, sheet, weights) = (&example.book, &example.sheet, &example.weights);
        assert_eq!(said.at("v").number(), weights.v);
        assert_eq!(said.at("w").number(), sheet.w() as i128);
        assert_eq!(said.at("q").number(), sheet.q);
        let head = ["q", "s", "G"].map(|name| said.at("sheet").at(name).number());
        assert_eq!(head, [sheet.q, sheet.s, sheet.g]);
        check_book(&said, book);
        check_winners(&said, book, sheet, weights);
        check_sets(&said, sheet, weights);
        let total = said.at("total_13");
        assert_eq!(total.at("left"), total.at("right"));
        assert_eq!(
            total.at("right").number(),
            sheet.s * sheet.x_sum(sheet.sets.len() - 1)
        );
        assert_eq!(said.at("value_9").at("left").number(), weights.v);
    }
}

fn check_book(said: &Value, book: &Book) {
    let values = reference::combinations::Values::of(book);
    let v = values.greatest_without(0);
    let sets = 0..1 << book.status.len();
    let sigma: Vec<i128> = sets.map(|set| v - values.greatest_without(set)).collect();
    assert_eq!(said.at("sigma_of_clients").numbers(), sigma);
    let said = said.at("book");
    assert_eq!(said.at("statuses").numbers(), book.status);
    let kinds = said.at("kinds").list();
    let supply: Vec<i128> = kinds
        .iter()
        .map(|kind| kind.at("supply").number())
        .collect();
    let reserve: Vec<i128> = kinds
        .iter()
        .map(|kind| kind.at("reserve").number())
        .collect();
    assert_eq!(
        (supply, reserve),
        (book.supply.clone(), book.reserve.clone())
    );
    assert_eq!(said.at("bids").list().len(), book.bids.len());
    for (said, bid) in said.at("bids").list().iter().zip(&book.bids) {
        assert_eq!(said.at("client").number(), bid.client as i128);
        assert_eq!(said.at("hours").numbers(), bid.hours);
        assert_eq!(said.at("amount").number(), bid.amount);
        assert_eq!(said.at("reserves").number(), book.reserves(bid));
        assert_eq!(said.at("rho").number(), bid.amount - book.reserves(bid));
    }
}

fn check_winners(said: &Value, book: &Book, sheet: &Sheet, weights: &Weights) {
    let prices = said.at("prices").numbers();
    assert_eq!(prices.len(), sheet.w());
    for (j, said) in said.at("winners").list().iter().enumerate() {
        let winner = &sheet.winners[j];
        let bid = book.bid(winner.bid).unwrap();
        let of = |name: &str| said.at(name).number();
        assert_eq!((of("winner"), of("bid")), (j as i128, winner.bid as i128));
        assert_eq!(
            (of("client"), of("amount")),
            (bid.client as i128, bid.amount)
        );
        assert_eq!(
            (of("X"), of("Z"), of("R"), of("T")),
            (winner.x, winner.z, winner.r, winner.t)
        );
        assert_eq!(of("price"), sheet.q * bid.amount - winner.x);
        assert_eq!(of("price"), prices[j]);
        assert_eq!(
            (of("rho"), of("sigma")),
            (weights.rho[j], weights.sigma_of_one(j))
        );
        assert_eq!(of("slack_10"), sheet.q * weights.rho[j] - winner.x);
        let y = sheet.sum_over_sets_holding(j, |set| set.y);
        assert_eq!(of("slack_12"), winner.z + y - sheet.s);
        assert_eq!(of("left_14"), sheet.q * weights.sigma_of_one(j) - winner.x);
        assert_eq!(of("right_14"), of("left_14"));
    }
}

fn check_sets(said: &Value, sheet: &Sheet, weights: &Weights) {
    let sets = said.at("sets").list();
    assert_eq!(sets.len(), sheet.sets.len() - 1);
    for (at, said) in sets.iter().enumerate() {
        let set = at + 1;
        let of = |name: &str| said.at(name).number();
        let members = said.at("winners").numbers();
        assert_eq!(members.iter().map(|k| 1 << k).sum::<usize>(), set);
        assert_eq!((of("set"), of("sigma")), (set as i128, weights.sigma[set]));
        assert_eq!((of("Y"), of("U")), (sheet.sets[set].y, sheet.sets[set].u));
        assert_eq!(
            of("slack_11"),
            sheet.q * weights.sigma[set] - sheet.x_sum(set)
        );
    }
}

/// The greatest numbers that fit their bytes, and any bytes at all.
#[test]
fn numbers_of_any_size() {
    let mut rng = Rng::new(83);
    for _ in 0..20 {
        let mut example = Example::small(&mut rng);
        let sheet = &mut example.sheet;
        (sheet.q, sheet.s, sheet.g) = (u32::MAX.into(), u32::MAX.into(), i64::MIN.into());
        for winner in &mut sheet.winners {
            (winner.x, winner.z) = (u64::MAX.into(), u32::MAX.into());
        }
        for set in &mut sheet.sets[1..] {
            (set.y, set.u) = (u32::MAX.into(), u64::MAX.into());
        }
        let said = reported(&example.bytes());
        assert_eq!(said.at("number").number(), 7);
        let total = example.sheet.s * example.sheet.x_sum(example.sheet.sets.len() - 1);
        assert_eq!(said.at("total_13").at("right").number(), total);
    }
    for _ in 0..3_000 {
        let bytes: Vec<u8> = (0..rng.index(0, 80)).map(|_| rng.bits() as u8).collect();
        assert_eq!(reported(&bytes).at("answer").text(), "refused");
    }
}

/// What there is not is null, and the names are there all the same.
#[test]
fn what_there_is_not() {
    let names = |value: &Value| match value {
        Value::Object(fields) => fields.keys().cloned().collect::<Vec<_>>(),
        other => panic!("{other:?}"),
    };
    let whole = reported(&fs::read(root().join("calls/A.call")).unwrap());
    let nulls = |call: &str| {
        let said = reported(&fs::read(root().join(format!("calls/{call}.call"))).unwrap());
        assert_eq!(names(&said), names(&whole));
        let nulls = names(&said)
            .into_iter()
            .filter(|name| said.at(name) == &Value::Null);
        nulls.collect::<Vec<_>>().join(" ")
    };
    assert_eq!(nulls("A"), "refusal");
    assert_eq!(
        nulls("empty"),
        "book sets sheet sigma_of_clients total_13 v value_9 winners"
    );
    assert_eq!(nulls("no-sheet"), "sets sheet total_13 value_9 winners");
    assert_eq!(nulls("ninth-bid"), "sigma_of_clients total_13 v value_9");
}

/// docs/CALLS.md has every name that is written, and its table no other.
#[test]
fn the_page_has_every_name() {
    let page = fs::read_to_string(root().join("docs/CALLS.md")).unwrap();
    let page = page.split("\n## JSON\n").nth(1).unwrap();
    let page = page.split("\n## ").next().unwrap();
    let rows = page.lines().filter(|line| line.starts_with("| `"));
    let cells = rows.filter_map(|row| row.split('|').nth(1));
    let mut in_table: Vec<&str> = cells
        .flat_map(|cell| cell.split('`').skip(1).step_by(2))
        .collect();
    in_table.sort_unstable();
    let mut names = Vec::new();
    let stale = reported(&fs::read(root().join("calls/spring-stale.call")).unwrap());
    names_in(&stale, &mut names);
    for name in names.iter().copied().chain(NAMES) {
        assert!(page.contains(&format!("`{name}`")), "{name}");
    }
    let Value::Object(fields) = &stale else {
        panic!("no object");
    };
    assert_eq!(in_table, fields.keys().collect::<Vec<_>>());
}

/// The names of all objects in a value.
fn names_in<'a>(value: &'a Value, names: &mut Vec<&'a str>) {
    match value {
        Value::List(values) => values.iter().for_each(|value| names_in(value, names)),
        Value::Object(fields) => {
            names.extend(fields.keys().map(String::as_str));
            fields.values().for_each(|value| names_in(value, names));
        }
        _ => {}
    }
}

/// Python's parser reads the same; where there is no python3 this says so and no more.
#[test]
fn python_reads_the_same() {
    let script = "import json, sys\nsaid = json.load(sys.stdin)\n\
        print(said['answer'], said['number'], said['v'], len(said['sets'] or []), json.dumps(said['refusal']))";
    let file = Scratch::new("read.py", script.as_bytes());
    let python = shell("command -v python3").0 == 0;
    let mut names: Vec<_> = fs::read_dir(root().join("calls"))
        .unwrap()
        .map(|entry| entry.unwrap().path())
        .collect();
    names.retain(|path| {
        path.extension()
            .is_some_and(|extension| extension == "call")
    });
    for path in names {
        let name = path.to_str().unwrap();
        let (status, out, _) = run(&["explain", "--json", name]);
        let said = parse(std::str::from_utf8(&out).unwrap());
        assert_eq!(status, i32::from(said.at("number").number() != 0));
        assert_eq!(run(&["show", "--json", name]), (0, out, String::new()));
        if !python {
            eprintln!("there is no python3");
            continue;
        }
        let (status, read, errors) = shell(&format!(
            "CALL show --json {name} | python3 {}",
            file.name()
        ));
        assert_eq!((status, errors.as_str()), (0, ""), "{name}");
        check_read(&said, std::str::from_utf8(&read).unwrap());
    }
}

fn check_read(said: &Value, read: &str) {
    let words: Vec<&str> = read.splitn(5, ' ').collect();
    let v = match said.at("v") {
        Value::Null => "None".to_string(),
        v => v.number().to_string(),
    };
    let sets = match said.at("sets") {
        Value::Null => 0,
        sets => sets.list().len(),
    };
    let number = said.at("number").number().to_string();
    assert_eq!(
        words[..4],
        [said.at("answer").text(), &number, &v, &sets.to_string()]
    );
    // Python writes what is not ASCII by its number, which the parser here reads back.
    assert_eq!(&parse(words[4].trim()), said.at("refusal"));
}
