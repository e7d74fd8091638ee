//! Makes a faulty copy of the reference for each fault of the table. A copy holds the file with the fault and the files that may use it;
//! the others are the reference's own.

#[path = "src/table/mod.rs"]
mod table;

use std::path::{Path, PathBuf};
use std::{env, fs};

/// The files of the reference. Each uses only files before it.
const FILES: [&str; 7] = ["bytes", "book", "sheet", "combinations", "weights", "questions", "answer"];

fn main() {
    let out = PathBuf::from(env::var("OUT_DIR").expect("cargo sets it"));
    let source = Path::new(env!("CARGO_MANIFEST_DIR")).join("../reference/src");
    println!("cargo:rerun-if-env-changed=FAULTS");
    println!("cargo:rerun-if-changed={}", source.display());
    println!("cargo:rerun-if-changed=src/table");
    let all = env::var("FAULTS").is_ok_and(|which| which == "all");
    let faults = table::faults(all);
    (1..=16).for_each(|question| assert_has_fault(&faults, question));
    let mut code = String::new();
    let mut list = String::new();
    for (number, (group, fault)) in faults.iter().enumerate() {
        let name = format!("fault_{number}");
        code += &copy(&source, &out.join(&name), &name, group.file, fault);
        let values = if ["weights", "questions", "answer"].contains(&group.file) { "kept" } else { "own" };
        list += &format!("copied!({values} {name}), ");
    }
    code += &format!("pub const ALL: bool = {all};\npub const COPIES: &[Copied] = &[{list}];\n");
    fs::write(out.join("copies.rs"), code).expect("the build's directory can be written");
}

/// Each question has a fault of its own.
fn assert_has_fault(faults: &[(&table::Group, &table::Fault)], question: usize) {
    let topic = format!("question {question}");
    let found = faults.iter().any(|(group, fault)| group.topic == topic && fault.same.is_none());
    assert!(found, "no fault in {topic}");
}

/// Writes one copy, and gives the module that holds it.
fn copy(source: &Path, to: &Path, name: &str, file: &str, fault: &table::Fault) -> String {
    fs::create_dir_all(to).expect("the build's directory can be written");
    let first = FILES.iter().position(|&other| other == file).expect("a file of the reference");
    let kept = FILES[..first].iter().map(|other| format!("    pub use reference::{other};\n"));
    let mut module: String = kept.collect();
    for other in &FILES[first..] {
        let text = fs::read_to_string(source.join(format!("{other}.rs"))).expect("the reference can be read");
        let text = if *other == file { with_fault(&text, fault) } else { text };
        let path = to.join(format!("{other}.rs"));
        fs::write(&path, text.replace("crate::", "super::")).expect("the build's directory can be written");
        module += &format!("    #[path = {path:?}]\n    pub mod {other};\n");
    }
    format!("#[allow(dead_code, unused)]\npub mod {name} {{\n{module}}}\n")
}

/// The text with the fault, which must have its place there exactly once.
fn with_fault(text: &str, fault: &table::Fault) -> String {
    let places = text.matches(fault.old).count();
    assert_eq!(places, 1, "the text of a fault stands {places} times in the reference: {}", fault.old);
    text.replace(fault.old, fault.new)
}
