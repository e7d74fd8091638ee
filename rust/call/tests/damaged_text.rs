//! Damaged text: a fault with the right line and column, and never a panic.

use call::assemble::{assemble, read};
use call::show::show;
use call::words::Fault;
use compare::Example;
use generate::Rng;
use std::fs;
use std::path::Path;

fn spring() -> String {
    let path = Path::new(env!("CARGO_MANIFEST_DIR")).join("../../examples/spring.txt");
    fs::read_to_string(path).unwrap()
}

/// The first fault of a text.
fn fault(text: &str) -> Fault {
    let faults = assemble(text.as_bytes()).expect_err(text);
    faults.into_iter().next().expect("a fault")
}

/// Every fault of a text, as it is printed after the file's name.
fn faults(text: &str) -> Vec<String> {
    let faults = assemble(text.as_bytes()).expect_err(text);
    faults.iter().map(Fault::to_string).collect()
}

/// The fault's place and a part of its words.
fn at(text: &str, line: usize, column: usize, words: &str) {
    let fault = fault(text);
    assert_eq!(
        (fault.line, fault.column),
        (line, column),
        "{text}: {fault}"
    );
    assert!(fault.what.contains(words), "{text}: {fault}");
}

#[test]
fn whole_lines() {
    at("", 1, 1, "no line");
    at("# nothing\n\n", 1, 1, "no line");
    assert_eq!(assemble(b"book").as_deref(), Ok(&[1, 0, 6, 0, 0, 0][..]));
    at("kinds 1", 1, 1, "'kinds' begins no line");
    at("\n  7 kind", 2, 3, "'7' begins no line");
    at(
        "client 1\nkind 1 supply 1 reserve 0",
        2,
        1,
        "a kind line after a client line",
    );
    at("sheet q 1 s 1\nsheet q 1 s 1", 2, 1, "a second sheet line");
    at("book\nbook", 2, 1, "a second book line");
    at(
        "kind 1 supply 1 reserve 0\nwinner 0 bid 1 X 1",
        2,
        1,
        "before the sheet line",
    );
    at("book 1", 1, 6, "no number stands right after 'book'");
}

#[test]
fn numbers_of_lines() {
    at("kind 2 supply 1 reserve 0", 1, 6, "kind 1 comes next");
    at("kind 1 2 supply 1 reserve 0", 1, 8, "a second number");
    at(
        "kind supply 1 reserve 0\nclient 1\nclient 1",
        3,
        8,
        "client 2 comes next",
    );
    at(
        "sheet q 1 s 1\nwinner 1 bid 1 X 0",
        2,
        8,
        "winner 0 comes next",
    );
}

#[test]
fn sets() {
    let sheet = "sheet q 1 s 1\nwinner bid 1 X 0\nwinner bid 2 X 0\n";
    let in_sheet =
        |line: &str, column: usize, words: &str| at(&format!("{sheet}{line}"), 4, column, words);
    in_sheet("set Y 1", 1, "names no set");
    in_sheet("set winners Y 1", 5, "no winner stands after");
    in_sheet("set winners 0 2 Y 1", 15, "no winner 2");
    in_sheet("set winners 0 0 Y 1", 15, "stands twice");
    in_sheet(
        "set 0 Y 1",
        5,
        "no set '0'; with 2 winners their numbers end at 3",
    );
    in_sheet("set 4 Y 1", 5, "no set '4'");
    in_sheet("set 99999999999999999999999 Y 1", 5, "no set");
    in_sheet("set 1 2 Y 1", 7, "a second number");
    in_sheet("set 3 winners 1 Y 1", 5, "set 3 has the winners 0 1");
    at(
        &format!("{sheet}set 3 Y 1\nset winners 1 0 U 1"),
        5,
        1,
        "line 4",
    );
    let by = |line: &str| assemble(format!("{sheet}{line}").as_bytes()).unwrap();
    assert_eq!(by("set 3 Y 1"), by("set winners 1 0 Y 1"));
    assert_eq!(by("set 3 Y 1"), by("set 3 Y 1 U 0 winners 0 1"));
    assert_ne!(by("set 3 Y 1"), by("set 2 Y 1"));
    at(
        "sheet q 1 s 1\nset 1 Y 1",
        2,
        5,
        "no set '1'; with 0 winners",
    );
}

#[test]
fn fields() {
    at(
        "kind 1 supply 1 reserv 0",
        1,
        17,
        "'reserv' is no word of a kind line; its words are supply, reserve",
    );
    at("kind 1 supply 1 supply 1", 1, 17, "stands twice");
    at("kind 1 supply 1   # more", 1, 16, "has no 'reserve'");
    at(
        "kind 1 supply reserve 0",
        1,
        8,
        "'supply' takes one number, and none stands here",
    );
    at(
        "kind 1 supply 1 2 reserve 0",
        1,
        17,
        "'supply' takes one number",
    );
    at(
        "client 1 withdrawn 1",
        1,
        20,
        "no number stands after 'withdrawn'",
    );
    at("client 1 withdrawn standing", 1, 20, "one status");
    at("client 1 withdrawn status 1", 1, 20, "one status");
}

#[test]
fn hours() {
    let book = "kind supply 1 reserve 0\nkind supply 1 reserve 0\nclient\n";
    at(
        &format!("{book}bid client 1 hours 1 amount 1"),
        4,
        14,
        "2 in all, and 1 stands here",
    );
    at(
        &format!("{book}bid client 1 hours 1 1 1 amount 1"),
        4,
        24,
        "2 in all",
    );
}

#[test]
fn sizes_of_numbers() {
    at(
        "kind 1 supply 256 reserve 0",
        1,
        15,
        "'256' is more than 255",
    );
    at("kind 1 supply 1 reserve 65536", 1, 25, "more than 65535");
    at("kind 1 supply -1 reserve 0", 1, 15, "less than 0");
    at(
        "kind 1 supply 1x reserve 0",
        1,
        15,
        "'1x' is no whole number",
    );
    at("kind 1 supply +1 reserve 0", 1, 15, "no whole number");
    at("kind 1 supply - reserve 0", 1, 15, "no whole number");
}

#[test]
fn long_numbers() {
    let long = "9".repeat(200);
    at(
        &format!("kind 1 supply {long} reserve 0"),
        1,
        15,
        "...' is more than 255",
    );
    at(
        &format!("sheet q 1 s 1 G -{long}"),
        1,
        17,
        "is less than -9223372036854775808",
    );
    at("sheet q 4294967296 s 1", 1, 9, "more than 4294967295");
    at(
        "sheet q 1 s 1 G 9223372036854775808",
        1,
        17,
        "more than 9223372036854775807",
    );
    at(
        "sheet q 1 s 1\nwinner bid 1 X 18446744073709551616",
        2,
        16,
        "more than 18446744073709551615",
    );
    assert!(assemble(b"sheet q 1 s 0001 G -9223372036854775808").is_ok());
}

#[test]
fn counts_that_fit_no_byte() {
    let text = "client\n".repeat(256);
    at(&text, 256, 1, "room for 255");
    let kinds = "kind supply 1 reserve 0\n".repeat(255);
    let bid = format!("bid client 1 hours{} amount 1\n", " 1".repeat(255));
    at(
        &format!("{kinds}client\n{}", bid.repeat(255)),
        255 + 1 + 250,
        1,
        "more than 65535",
    );
    let winners = "winner bid 1 X 0\n".repeat(13);
    at(
        &format!("sheet q 1 s 1\n{winners}"),
        14,
        1,
        "more than 65535",
    );
    assert!(assemble("client\n".repeat(255).as_bytes()).is_ok());
}

#[test]
fn odd_bytes() {
    let said = assemble(b"kind 1 \xcf\x83 \xff supply 1 reserve 0\nclient \xff").unwrap_err();
    let places: Vec<_> = said
        .iter()
        .map(|fault| (fault.line, fault.column))
        .collect();
    assert_eq!(places, [(1, 10), (2, 8)], "{said:?}");
    at(
        "kind 1 supply 1 reserve 0\nkl\0ient",
        2,
        1,
        "'kl\\0ient' begins no line",
    );
    at("kind 1 σ 1 suply 1", 1, 8, "'σ' is no word");
    assert!(assemble("\u{feff}kind 1 supply 1 reserve 0\r\nclient 1\r\n".as_bytes()).is_ok());
    let call = assemble(spring().as_bytes()).unwrap();
    assert!(assemble(&call).is_err());
}

/// In a comment any byte may stand.
#[test]
fn odd_bytes_in_comments() {
    let plain = assemble(b"kind 1 supply 1 reserve 0\nclient 1\n");
    let said = assemble(b"# \xff\nkind 1 supply 1 reserve 0 # caf\xe9\nclient 1#\xc3\n");
    assert!(plain.is_ok());
    assert_eq!(plain, said);
}

/// All faults of a text at once, by line and column, and none that only follows from another.
#[test]
fn all_faults_at_once() {
    let text = "kind 1 supply two reserve 10\nkind 2 suply 1 reserv 5\nclient 1 withdrwn\nclient 3\nclient 4\n\
        bid 1 client 1 hours 1 x amont 90\nbid 2 client 1 hours 1 amount\nsheet q 1\nwinner 0 bid 1 X 1 Z\n\
        set winers 0 Y 1\nset 1 Y 1\nset 1 U 1 V 2";
    let expected = [
        "1:15: 'supply' takes a number, and 'two' is no whole number",
        "2:8: 'suply' is no word of a kind line; its words are supply, reserve",
        "2:16: 'reserv' is no word of a kind line; its words are supply, reserve",
        "3:10: 'withdrwn' is no word of a client line; its words are standing, withdrawn, status",
        "4:8: '3' where client 2 comes next",
        "6:24: 'hours' takes a number, and 'x' is no whole number",
        "6:26: 'amont' is no word of a bid line; its words are client, hours, amount",
        "7:16: 'hours' takes a number for each kind, 2 in all, and 1 stands here",
        "7:24: 'amount' takes one number, and none stands here",
        "8:10: the sheet line has no 's'",
        "9:20: 'Z' takes one number, and none stands here",
        "10:5: 'winers' is no word of a set line; its words are winners, Y, U",
        "12:1: this set has a line already, line 11",
        "12:11: 'V' is no word of a set line; its words are winners, Y, U",
    ];
    assert_eq!(faults(text), expected);
}

/// What a lost line would have counted is not held against the lines after it, and an order once broken is told once.
#[test]
fn faults_that_would_follow_are_not_told() {
    let first = "lines begin with book, kind, client, bid, sheet, winner, set";
    let lost = "kid 1 supply 1 reserve 0\nkind 2 supply 1 reserve 0\nclient\nbid client 1 hours 1 1 amount 5\n\
        shet q 1 s 1\nwinner 1 bid 1 X 0\nset 2 Y 1";
    let told = [
        format!("1:1: 'kid' begins no line; {first}"),
        format!("5:1: 'shet' begins no line; {first}"),
    ];
    assert_eq!(faults(lost), told);
    let early = faults(
        "sheet q 1 s 1\nkind supply 1 reserve 0\nkind supply 1 reserve 0\nclient\nsheet q 2 s 2",
    );
    let order = "the order is book, kind, client, bid, sheet, winner, set";
    let told = [
        format!("2:1: a kind line after a sheet line; {order}"),
        "5:1: a second sheet line".to_string(),
    ];
    assert_eq!(early, told);
    let winners = faults("kind supply 1 reserve 0\nwinner bid 1 X 0\nwinner bid 2 X 0\nset 3 Y 1");
    assert_eq!(winners, ["2:1: a winner line before the sheet line"]);
}

/// The warnings for a text without a fault.
fn warnings(text: &str) -> Vec<String> {
    let reading = read(text.as_bytes());
    assert_eq!(reading.faults, [], "{text}");
    reading.warnings.iter().map(Fault::to_string).collect()
}

const KIND: &str = "kind supply 1 reserve 0\n";
const MORE: &str = "at most, and question 2 refuses more";

/// More than a book can have makes a call all the same, with a warning that names the question.
#[test]
fn too_many_kinds_and_clients() {
    assert_eq!(warnings(&KIND.repeat(4)), Vec::<String>::new());
    let told = format!("5:1: this is kind 5; a book has 4 {MORE}");
    assert_eq!(warnings(&KIND.repeat(6)), [told]);
    assert_eq!(warnings(&"client\n".repeat(6)), Vec::<String>::new());
    let told = format!("7:1: this is client 7; a book has 6 {MORE}");
    assert_eq!(warnings(&"client\n".repeat(9)), [told]);
}

#[test]
fn too_many_bids_and_winners() {
    let bids = |count: usize| -> String {
        let bids = (0..count).map(|at| format!("bid client {} hours 1 amount 1\n", at % 6 + 1));
        format!("{KIND}{}{}", "client\n".repeat(6), bids.collect::<String>())
    };
    assert_eq!(warnings(&bids(48)), Vec::<String>::new());
    let of_client =
        "56:1: this is bid 9 of client 1; a client has 8 at most, and question 4 refuses more";
    let told = [
        format!("56:1: this is bid 49; a book has 48 {MORE}"),
        of_client.to_string(),
    ];
    assert_eq!(warnings(&bids(49)), told);
    let winner = "winner bid 1 X 0\n";
    let sheet = format!("{KIND}client\nclient\nsheet q 1 s 1\n{}", winner.repeat(2));
    assert_eq!(warnings(&sheet), Vec::<String>::new());
    let told = "7:1: 3 winners are more than the book's clients, 2, and question 6 refuses that";
    assert_eq!(warnings(&format!("{sheet}{winner}")), [told]);
}

/// What is left out has its meaning, and what is written has another order or none.
#[test]
fn what_may_be_left_out() {
    let long = "book version 1 length 23\nkind 1 supply 2 reserve 10\nclient 1 status 0\nclient 2 status 1\n\
        bid 1 amount 90 hours 2 client 1\nbid 2 client 2 hours 2 amount 70\n\
        sheet s 1 q 1 version 1 length 61 G 20\nwinner 0 bid 1 X 70 Z 1 R 0 T 0\nset 1 Y 0 U 0\n";
    let short =
        "kind supply 2 reserve 10\nclient\nclient withdrawn\nbid client 1 hours 2 amount 90\n\
        bid client 2 hours 2 amount 70\nsheet q 1 s 1 G 20\nwinner bid 1 X 70 Z 1";
    assert_eq!(assemble(long.as_bytes()), assemble(short.as_bytes()));
    assert_eq!(assemble(long.as_bytes()), assemble(spring().as_bytes()));
    let version = assemble(b"book version 7 length 9\nclient").unwrap();
    assert_eq!(version, [7, 0, 9, 0, 1, 0, 0]);
}

/// A line that is cut is at fault itself, or reads as another; one that is gone may be missed further on.
#[test]
fn each_line_cut_short() {
    let text = spring();
    let lines: Vec<&str> = text.lines().collect();
    let mut faults = 0;
    for (at, line) in lines
        .iter()
        .enumerate()
        .filter(|(_, line)| !line.starts_with('#'))
    {
        for end in 0..line.len() {
            let mut cut = lines.clone();
            cut[at] = &line[..end];
            let Err(found) = assemble(cut.join("\n").as_bytes()) else {
                continue;
            };
            faults += 1;
            let fault = &found[0];
            assert!(
                fault.line == at + 1 || (end == 0 && fault.line > at),
                "{fault} for {:?}",
                cut[at]
            );
            assert!(
                fault.line > at + 1 || fault.column <= end + 1,
                "{fault} for {:?}",
                cut[at]
            );
        }
    }
    assert!(faults > 100, "{faults}");
}

#[test]
fn each_word_replaced() {
    let text = spring();
    for (at, line) in text
        .lines()
        .enumerate()
        .filter(|(_, line)| !line.starts_with('#'))
    {
        let mut column = 1;
        for word in line.split(' ') {
            let start = &line[..column - 1];
            let new = format!("{start}wrong{}", &line[column - 1 + word.len()..]);
            let damaged: Vec<&str> = text
                .lines()
                .enumerate()
                .map(|(n, old)| if n == at { new.as_str() } else { old })
                .collect();
            if !word.is_empty() {
                let fault = fault(&damaged.join("\n"));
                assert_eq!(
                    (fault.line, fault.column),
                    (at + 1, column),
                    "{fault} for {new}"
                );
            }
            column += word.len() + 1;
        }
    }
}

#[test]
fn random_damage_never_panics() {
    let mut rng = Rng::new(41);
    let texts: Vec<String> = (0..40)
        .map(|_| show(&Example::small(&mut rng).bytes()).text)
        .collect();
    let mut faults = 0;
    for _ in 0..20_000 {
        let mut bytes = rng.pick(&texts).clone().into_bytes();
        for _ in 0..rng.index(1, 4) {
            damage(&mut rng, &mut bytes);
        }
        let lines = bytes.iter().filter(|&&byte| byte == b'\n').count() + 1;
        for fault in assemble(&bytes).err().into_iter().flatten() {
            faults += 1;
            assert!(
                fault.line >= 1 && fault.line <= lines && fault.column >= 1,
                "{fault}"
            );
        }
    }
    assert!(faults > 1_000, "{faults}");
}

fn damage(rng: &mut Rng, bytes: &mut Vec<u8>) {
    if bytes.is_empty() {
        return;
    }
    let at = rng.index(0, bytes.len() - 1);
    match rng.index(0, 5) {
        0 => bytes[at] = rng.bits() as u8,
        1 => bytes.truncate(at),
        2 => drop(bytes.remove(at)),
        3 => bytes.insert(at, *rng.pick(b"#\n -9aX\xff")),
        4 => drop(bytes.drain(at..(at + 20).min(bytes.len()))),
        _ => bytes.extend_from_within(at..(at + 40).min(bytes.len())),
    }
}

#[test]
fn random_bytes_never_panic() {
    let mut rng = Rng::new(42);
    for _ in 0..5_000 {
        let bytes: Vec<u8> = (0..rng.index(0, 80)).map(|_| rng.bits() as u8).collect();
        let _ = assemble(&bytes);
        let _ = show(&bytes);
        let _ = call::explain::explain(&bytes);
    }
}
