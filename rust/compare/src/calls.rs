//! The worked calls of a directory: each `NAME.call` must print the lines of `NAME.expected`.

use crate::comparison::Examiner;
use crate::Input;
use std::fs;
use std::path::{Path, PathBuf};

/// Puts all worked calls, each through the program too. There must be some.
pub fn put(examiner: &mut dyn Examiner, directory: &Path) -> Result<(), String> {
    let calls = names(directory)?;
    for call in &calls {
        let bytes = read(call)?;
        let expected = read(&call.with_extension("expected"))?;
        let lines = reference::price_list(&bytes);
        if lines.as_bytes() != expected {
            return Err(format!(
                "{} is not answered as expected: {lines}",
                call.display()
            ));
        }
        let way = "worked call";
        examiner.call_and_print(&Input { way, bytes })?;
    }
    match calls.is_empty() {
        true => Err(format!("no calls in {}", directory.display())),
        false => Ok(()),
    }
}

fn names(directory: &Path) -> Result<Vec<PathBuf>, String> {
    let problem = |error| format!("{}: {error}", directory.display());
    let entries = fs::read_dir(directory).map_err(problem)?;
    let paths = entries.filter_map(|entry| Some(entry.ok()?.path()));
    let mut calls: Vec<PathBuf> = paths
        .filter(|path| path.extension().is_some_and(|end| end == "call"))
        .collect();
    calls.sort();
    Ok(calls)
}

fn read(path: &Path) -> Result<Vec<u8>, String> {
    fs::read(path).map_err(|error| format!("{}: {error}", path.display()))
}
