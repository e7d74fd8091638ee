//! Writes crates/vectors/stdin and crates/vectors/stdout anew.

use std::path::Path;

fn main() -> std::io::Result<()> {
    let folder = Path::new(env!("CARGO_MANIFEST_DIR")).join("../../crates/vectors");
    let (given, answered) = vectors::texts();
    std::fs::write(folder.join("stdin"), given)?;
    std::fs::write(folder.join("stdout"), answered)
}
