//! Links the proved library, which the command bin/library writes to target/staticlib.

use std::env;
use std::path::{Path, PathBuf};
use std::process::Command;

/// Where to link from: a copy of the library whose functions begin at multiples of 64 bytes, as those in Rust do (.cargo/config.toml), so
/// that a comparison of times does not hang on where the linker puts what. Where there is no objcopy, the library as it is.
fn placed(archive: &Path) -> PathBuf {
    let folder = PathBuf::from(env::var_os("OUT_DIR").expect("cargo gives OUT_DIR"));
    let copied = Command::new("objcopy")
        .args(["--set-section-alignment", ".text*=64"])
        .args([archive, &folder.join("libgimletsorrel.a")])
        .status();
    match copied {
        Ok(status) if status.success() => folder,
        _ => archive.parent().expect("the library is in a folder").into(),
    }
}

fn main() {
    let root = Path::new(env!("CARGO_MANIFEST_DIR")).join("../..");
    let archive = root.join("target/staticlib/libgimletsorrel.a");
    println!("cargo:rerun-if-changed={}", archive.display());
    if !archive.exists() {
        eprintln!("target/staticlib/libgimletsorrel.a is missing: the command bin/library proves the library and writes it");
        std::process::exit(1);
    }
    println!("cargo:rustc-link-search=native={}", placed(&archive).display());
    println!("cargo:rustc-link-lib=static=gimletsorrel");
}
