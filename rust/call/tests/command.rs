//! The command as a program: exit statuses, standard input and output, files that are not there.

mod common;

use common::{command, root, run, run_with_input, shell, told, Scratch};
use std::fs::{self, File};
use std::path::Path;
use std::process::Stdio;

#[test]
fn the_spring_texts_are_the_spring_calls() {
    for name in ["spring", "spring-stale"] {
        let call = fs::read(root().join(format!("calls/{name}.call"))).unwrap();
        let (status, out, errors) = run(&["assemble", &format!("examples/{name}.txt")]);
        assert_eq!((status, out, errors.as_str()), (0, call, ""));
    }
}

#[test]
fn from_standard_input_and_to_a_file() {
    let text = fs::read(root().join("examples/spring.txt")).unwrap();
    let call = fs::read(root().join("calls/spring.call")).unwrap();
    assert_eq!(run_with_input(&["assemble", "-"], &text).1, call);
    let out = Scratch::new("spring.call", b"");
    let name = out.name();
    assert_eq!(
        run(&["assemble", "examples/spring.txt", "-o", name]),
        (0, vec![], String::new())
    );
    assert_eq!(out.contents(), call);
    assert_eq!(
        run(&["assemble", "-o", name, "examples/spring-stale.txt"]).0,
        0
    );
    assert_ne!(out.contents(), call);
    assert_eq!(run(&["assemble", "examples/spring.txt", "-o", "-"]).1, call);
    let (status, shown, _) = run_with_input(&["show", "-"], &call);
    assert_eq!(status, 0);
    assert_eq!(run_with_input(&["assemble", "-"], &shown).1, call);
}

#[test]
fn statuses() {
    assert_eq!(run(&["explain", "calls/spring.call"]).0, 0);
    assert_eq!(run(&["explain", "calls/spring-stale.call"]).0, 1);
    assert_eq!(run(&["show", "calls/spring-stale.call"]).0, 0);
    let (status, _, errors) = run(&["show", "calls/byte-too-many.call"]);
    assert_eq!(status, 1);
    assert_eq!(errors, "call: calls/byte-too-many.call: question 6 stops it: byte 144 is past the end of the sheet: 1 byte too many\n");
    for words in [
        &["show", "no such file"][..],
        &["assemble", "no\nsuch"],
        &["explain", "calls"],
    ] {
        let (status, out, errors) = run(words);
        assert_eq!((status, out), (3, vec![]), "{errors}");
        assert_eq!(errors.lines().count(), 1, "{errors}");
    }
}

/// A name that is no text is opened as it stands.
#[test]
fn a_name_that_is_no_text() {
    use std::os::unix::ffi::OsStrExt;
    let path = std::env::temp_dir().join(std::ffi::OsStr::from_bytes(b"spring-\xff.call"));
    fs::copy(root().join("calls/spring.call"), &path).unwrap();
    let (status, _, errors) = told(command(&["explain"]).arg(&path).output().unwrap());
    fs::remove_file(&path).unwrap();
    assert_eq!((status, errors.as_str()), (0, ""));
}

/// Faults as editors read them, all of them, with nothing written.
#[test]
fn faults_with_file_line_and_column() {
    let text = b"kind 1 supply two reserve 1\nclient 1\nclient 2 withdrawn 5\n";
    let told = |name: &str| {
        format!("{name}:1:15: 'supply' takes a number, and 'two' is no whole number\n{name}:3:20: no number stands after 'withdrawn'\n")
    };
    let file = Scratch::new("faults.txt", text);
    for command in ["assemble", "show", "explain", "propose"] {
        assert_eq!(run(&[command, file.name()]), (2, vec![], told(file.name())));
        assert_eq!(
            run_with_input(&[command, "-"], text),
            (2, vec![], told("<stdin>"))
        );
    }
    let many = run_with_input(&["assemble", "-"], "wrong\n".repeat(500).as_bytes()).2;
    assert_eq!(many.lines().count(), 101);
    assert!(
        many.ends_with("call: standard input has 400 faults more\n"),
        "{many}"
    );
}

#[test]
fn no_text() {
    let told = "call: calls/A.call is no text; perhaps it is a call already\n";
    assert_eq!(
        run(&["assemble", "calls/A.call"]),
        (2, vec![], told.to_string())
    );
    let told = "<stdin>:1:1: the text has no line but blank ones and comments\n";
    assert_eq!(
        run_with_input(&["assemble", "-"], b""),
        (2, vec![], told.to_string())
    );
}

#[test]
fn warnings_do_not_stop_it() {
    let text = "kind supply 1 reserve 0\n".repeat(5) + "client\n";
    let (status, out, errors) = run_with_input(&["assemble", "-"], text.as_bytes());
    assert_eq!((status, out.len()), (0, 22));
    assert_eq!(
        errors,
        "<stdin>:5:1: warning: this is kind 5; a book has 4 at most, and question 2 refuses more\n"
    );
    assert_eq!(run_with_input(&["show", "-"], text.as_bytes()).0, 1);
}

/// What is done with a text is what is done with the call that it makes.
#[test]
fn text_as_well_as_bytes() {
    for name in ["spring", "spring-stale"] {
        let (text, call) = (format!("examples/{name}.txt"), format!("calls/{name}.call"));
        for words in [
            &["show"][..],
            &["explain"],
            &["show", "--json"],
            &["explain", "--json"],
        ] {
            let of_text = run(&[words, &[text.as_str()]].concat());
            let of_call = run(&[words, &[call.as_str()]].concat());
            assert!(!of_call.1.is_empty());
            assert_eq!(of_text, of_call);
        }
    }
    // A version that a text may begin with is still a call, by the length after it.
    let mut call = fs::read(root().join("calls/A.call")).unwrap();
    call[0] = b'#';
    let (status, _, errors) = run_with_input(&["show", "-"], &call);
    assert_eq!(status, 1);
    assert!(
        errors.contains("the book's version, is 35 and must be 1"),
        "{errors}"
    );
    assert_eq!(run_with_input(&["explain", "-"], b"").0, 1);
}

/// Its own source is not overwritten, by whatever name.
#[test]
fn the_source_is_kept() {
    let text = fs::read(root().join("examples/spring.txt")).unwrap();
    let file = Scratch::new("kept.txt", &text);
    let name = file.name();
    let linked = format!("{name}.linked");
    std::os::unix::fs::symlink(name, &linked).unwrap();
    let dotted = format!(
        "{}/./{}",
        std::env::temp_dir().display(),
        file.0.file_name().unwrap().to_str().unwrap()
    );
    for command in ["assemble", "propose"] {
        for out in [name, &linked, &dotted] {
            let (status, _, errors) = run(&[command, name, "-o", out]);
            assert_eq!(status, 2, "{errors}");
            assert!(
                errors.contains("would be overwritten with what is made of it"),
                "{errors}"
            );
        }
        let (status, _, errors) = shell(&format!("CALL {command} - -o {name} <{name}"));
        assert_eq!(status, 2, "{errors}");
        assert_eq!(shell(&format!("CALL {command} {name} >>{name}")).0, 2);
    }
    fs::remove_file(linked).unwrap();
    assert_eq!(file.contents(), text);
}

/// No bytes to a terminal. The first part holds for any machine; the second needs a command that gives a terminal.
#[test]
fn bytes_are_not_written_to_a_terminal() {
    use call::files::no_place;
    let (from, out) = ("examples/spring.txt".as_ref(), "-".as_ref());
    assert!(no_place(from, out, true).is_some_and(|why| why.contains("is a terminal")));
    assert_eq!(no_place(from, out, false), None);
    for words in ["assemble", "propose", "assemble -o /dev/stdout"] {
        let line =
            format!("script -qec 'CALL {words} examples/spring.txt; echo status $?' /dev/null");
        let (_, said, _) = shell(&format!("command -v script >/dev/null || exit 0; {line}"));
        let said = String::from_utf8(said).unwrap();
        let refused =
            said.contains("is a terminal; name a file with -o") && said.contains("status 2");
        assert!(said.is_empty() || refused, "{said}");
    }
    assert_eq!(
        run(&["assemble", "examples/spring.txt", "-o", "/dev/null"]).0,
        0
    );
}

/// Wrong uses, and what is said of each.
const WRONG: &[(&[&str], &str)] = &[
    (
        &[],
        "no command is named; the commands are assemble, show, explain and propose",
    ),
    (
        &["judge"],
        "'judge' is no command; the commands are assemble, show, explain and propose",
    ),
    (
        &["--json", "show", "a"],
        "'--json' is no command; the commands are assemble, show, explain and propose",
    ),
    (&["show"], "show takes a FILE, and none is named"),
    (
        &["explain", "--json"],
        "explain takes a FILE, and none is named",
    ),
    (
        &["show", "a", "b"],
        "show takes one FILE, and 'b' is a second",
    ),
    (
        &["propose", "a", "-o", "c", "b"],
        "propose takes one FILE, and 'b' is a second",
    ),
    (
        &["show", "--all"],
        "'--all' is no option of show, which takes --json",
    ),
    (
        &["explain", "-o", "a", "b"],
        "'-o' is no option of explain, which takes --json",
    ),
    (
        &["assemble", "a", "-o"],
        "-o takes the name of a file, and none follows it",
    ),
    (&["assemble", "-o", "a", "-o", "b", "c"], "-o stands twice"),
    (
        &["assemble", "-x", "a", "b"],
        "'-x' is no option of assemble, which takes -o OUT",
    ),
    (
        &["propose", "--json", "a"],
        "'--json' is no option of propose, which takes -o OUT",
    ),
    (
        &["--version", "a"],
        "nothing follows --version, and 'a' does",
    ),
];

#[test]
fn wrong_command_lines() {
    for (words, wrong) in WRONG {
        let errors = format!("call: {wrong}; call --help says more\n");
        assert_eq!(run(words), (2, vec![], errors), "{words:?}");
    }
}

#[test]
fn names_that_look_like_options() {
    let (status, out, errors) = run(&["show", "--", "--json"]);
    assert_eq!((status, out), (3, vec![]));
    assert!(
        errors.starts_with("call: --json cannot be read"),
        "{errors}"
    );
    assert_eq!(run(&["show", "--json", "--", "calls/A.call"]).0, 0);
}

#[test]
fn version() {
    let (status, out, errors) = run(&["--version"]);
    assert_eq!((status, errors.as_str()), (0, ""));
    assert_eq!(
        out,
        format!("call {}\n", env!("CARGO_PKG_VERSION")).into_bytes()
    );
}

#[test]
fn help() {
    let (status, out, errors) = run(&["--help"]);
    let out = String::from_utf8(out).unwrap();
    assert_eq!((status, errors.as_str()), (0, ""));
    for word in [
        "assemble FILE [-o OUT]",
        "show FILE [--json]",
        "explain FILE [--json]",
        "propose FILE [-o OUT]",
        "never decides",
        "Exit status",
    ] {
        assert!(out.contains(word), "{word}");
    }
    assert_eq!(run(&["show", "--help"]).1, out.as_bytes());
}

/// The lines of the form in `--help` are read as they stand, but for the words beside them.
#[test]
fn the_form_in_help_is_the_spring_call() {
    let out = String::from_utf8(run(&["--help"]).1).unwrap();
    let lines = out
        .lines()
        .skip_while(|line| !line.starts_with("    book version"));
    let lines = lines
        .take_while(|line| !line.is_empty())
        .map(|line| line[4..].split("  ").next().unwrap());
    let text = lines.collect::<Vec<_>>().join("\n");
    let call = fs::read(root().join("calls/spring.call")).unwrap();
    assert_eq!(
        run_with_input(&["assemble", "-"], text.as_bytes()),
        (0, call, String::new())
    );
}

#[test]
fn output_that_cannot_be_written() {
    if !Path::new("/dev/full").exists() {
        return;
    }
    for words in [
        &["show", "calls/A.call"][..],
        &["explain", "calls/A.call"],
        &["assemble", "examples/spring.txt"],
        &["--help"],
    ] {
        let full = File::options().write(true).open("/dev/full").unwrap();
        let output = command(words)
            .stdout(full)
            .stderr(Stdio::piped())
            .spawn()
            .unwrap()
            .wait_with_output()
            .unwrap();
        let (status, _, errors) = told(output);
        assert_eq!(status, 3, "{words:?}");
        assert!(
            errors.starts_with("call: standard output cannot be written"),
            "{errors}"
        );
    }
}

/// A reader that has gone, and descriptors that were never open, end in a status and no panic.
#[test]
fn readers_gone_and_descriptors_closed() {
    for line in [
        "{ sleep 0.2; CALL show calls/A.call; echo $? >&2; } | true",
        "CALL show calls/A.call >&-; echo $? >&2",
        "CALL explain - <&-; echo $? >&2",
        "CALL show calls/empty.call 2>&- >&-; echo $? >&2",
        "CALL show calls/A.call >/dev/full 2>&-; echo $? >&2",
    ] {
        let (_, _, errors) = shell(line);
        let status = errors.lines().last().unwrap_or("");
        assert!(["0", "1", "3"].contains(&status), "{line}: {errors}");
        assert!(!errors.contains("panicked"), "{line}: {errors}");
    }
}

#[test]
fn input_without_end() {
    for (words, status) in [
        (["assemble", "/dev/zero"], 2),
        (["show", "/dev/zero"], 1),
        (["explain", "/dev/zero"], 1),
    ] {
        let (given, _, errors) = run(&words);
        assert_eq!(given, status, "{errors}");
        assert!(errors.contains("is longer than"), "{errors}");
    }
}

/// What docs/CALLS.md shows of the spring calls is what the command prints.
#[test]
fn the_page_shows_what_is_printed() {
    let page = fs::read_to_string(root().join("docs/CALLS.md")).unwrap();
    let indented = |text: &str| {
        let lines = text.lines().map(|line| {
            if line.is_empty() {
                String::new()
            } else {
                format!("    {line}")
            }
        });
        lines.collect::<Vec<_>>().join("\n")
    };
    let shown = String::from_utf8(run(&["show", "calls/spring.call"]).1).unwrap();
    let from_book = shown.split_once("\n\n").unwrap().1;
    assert!(page.contains(&indented(from_book)), "{from_book}");
    let explained = String::from_utf8(run(&["explain", "calls/spring-stale.call"]).1).unwrap();
    assert!(page.contains(&indented(&explained)), "{explained}");
    let text = fs::read_to_string(root().join("examples/spring.txt")).unwrap();
    let without_comments = text
        .lines()
        .filter(|line| !line.starts_with('#'))
        .collect::<Vec<_>>()
        .join("\n");
    assert!(page.contains(&indented(&without_comments)));
}
