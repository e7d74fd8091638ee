//! What is asked for on the command line, or what is wrong with it.

use crate::words::quoted;
use std::ffi::{OsStr, OsString};

/// A command and what it is given.
#[derive(Debug, PartialEq, Eq)]
pub enum Asked {
    Help,
    Version,
    Assemble { file: OsString, out: OsString },
    Show { file: OsString, json: bool },
    Explain { file: OsString, json: bool },
    Propose { file: OsString, out: OsString },
}

const COMMANDS: &str = "assemble, show, explain and propose";

/// The words after a command's name.
#[derive(Default)]
struct Rest {
    files: Vec<OsString>,
    out: Option<OsString>,
    json: bool,
}

/// Reads the words after `call`.
pub fn asked(words: &[OsString]) -> Result<Asked, String> {
    let options = words.iter().take_while(|word| *word != "--");
    if options.clone().any(|word| word == "--help" || word == "-h") {
        return Ok(Asked::Help);
    }
    let Some((command, rest)) = words.split_first() else {
        return Err(format!("no command is named; the commands are {COMMANDS}"));
    };
    match command.to_str().unwrap_or("") {
        "--version" => match rest.first() {
            None => Ok(Asked::Version),
            Some(word) => Err(format!(
                "nothing follows --version, and {} does",
                shown(word)
            )),
        },
        "assemble" => written("assemble", rest).map(|(file, out)| Asked::Assemble { file, out }),
        "propose" => written("propose", rest).map(|(file, out)| Asked::Propose { file, out }),
        "show" => printed("show", rest).map(|(file, json)| Asked::Show { file, json }),
        "explain" => printed("explain", rest).map(|(file, json)| Asked::Explain { file, json }),
        _ => Err(format!(
            "{} is no command; the commands are {COMMANDS}",
            shown(command)
        )),
    }
}

/// The file of a command that writes bytes, and where to: `-` is standard output.
fn written(command: &str, words: &[OsString]) -> Result<(OsString, OsString), String> {
    let rest = read(command, "-o OUT", words)?;
    let file = one_file(command, rest.files)?;
    Ok((file, rest.out.unwrap_or_else(|| "-".into())))
}

/// The file of a command that prints, and whether it prints JSON.
fn printed(command: &str, words: &[OsString]) -> Result<(OsString, bool), String> {
    let rest = read(command, "--json", words)?;
    Ok((one_file(command, rest.files)?, rest.json))
}

/// Files, and the one option that the command takes. After `--` every word is a file.
fn read(command: &str, option: &str, words: &[OsString]) -> Result<Rest, String> {
    let mut rest = Rest::default();
    let mut words = words.iter();
    let name = option.split(' ').next().unwrap_or("");
    while let Some(word) = words.next() {
        match word.to_str().unwrap_or("") {
            "--" => rest.files.extend(words.by_ref().cloned()),
            "-o" if name == "-o" => {
                let out = words
                    .next()
                    .ok_or("-o takes the name of a file, and none follows it")?;
                if rest.out.replace(out.clone()).is_some() {
                    return Err("-o stands twice".to_string());
                }
            }
            "--json" if name == "--json" => rest.json = true,
            other if other.starts_with('-') && other != "-" => {
                let other = shown(word);
                return Err(format!(
                    "{other} is no option of {command}, which takes {option}"
                ));
            }
            _ => rest.files.push(word.clone()),
        }
    }
    Ok(rest)
}

fn one_file(command: &str, files: Vec<OsString>) -> Result<OsString, String> {
    let mut files = files.into_iter();
    match (files.next(), files.next()) {
        (None, _) => Err(format!("{command} takes a FILE, and none is named")),
        (Some(file), None) => Ok(file),
        (_, Some(second)) => Err(format!(
            "{command} takes one FILE, and {} is a second",
            shown(&second)
        )),
    }
}

fn shown(word: &OsStr) -> String {
    quoted(&word.to_string_lossy())
}
