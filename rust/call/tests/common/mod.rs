//! Running the command as a program.
#![allow(dead_code)]

use std::io::Write;
use std::path::{Path, PathBuf};
use std::process::{Command, Output, Stdio};

/// The repository.
pub fn root() -> PathBuf {
    Path::new(env!("CARGO_MANIFEST_DIR")).join("../..")
}

pub fn command(words: &[&str]) -> Command {
    let mut command = Command::new(env!("CARGO_BIN_EXE_call"));
    command.args(words).current_dir(root()).stdin(Stdio::null());
    command
}

/// Runs it and gives the status, what it wrote, and what it complained of.
pub fn run(words: &[&str]) -> (i32, Vec<u8>, String) {
    told(command(words).output().unwrap())
}

pub fn told(output: Output) -> (i32, Vec<u8>, String) {
    let status = output.status.code().expect("no signal");
    (
        status,
        output.stdout,
        String::from_utf8(output.stderr).unwrap(),
    )
}

pub fn run_with_input(words: &[&str], input: &[u8]) -> (i32, Vec<u8>, String) {
    let mut child = command(words)
        .stdin(Stdio::piped())
        .stdout(Stdio::piped())
        .stderr(Stdio::piped())
        .spawn()
        .unwrap();
    // The other end may stop reading first.
    let _ = child.stdin.take().unwrap().write_all(input);
    told(child.wait_with_output().unwrap())
}

/// Runs a line of shell in which CALL stands for the command.
pub fn shell(line: &str) -> (i32, Vec<u8>, String) {
    let line = line.replace("CALL", env!("CARGO_BIN_EXE_call"));
    let mut shell = Command::new("bash");
    told(
        shell
            .args(["-c", &line])
            .current_dir(root())
            .output()
            .unwrap(),
    )
}

/// A file for one test, which is gone with it.
pub struct Scratch(pub PathBuf);

impl Scratch {
    pub fn new(name: &str, contents: &[u8]) -> Scratch {
        let path = std::env::temp_dir().join(format!("call-{}-{name}", std::process::id()));
        std::fs::write(&path, contents).unwrap();
        Scratch(path)
    }

    pub fn name(&self) -> &str {
        self.0.to_str().unwrap()
    }

    pub fn contents(&self) -> Vec<u8> {
        std::fs::read(&self.0).unwrap()
    }
}

impl Drop for Scratch {
    fn drop(&mut self) {
        let _ = std::fs::remove_file(&self.0);
    }
}
