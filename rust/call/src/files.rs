//! Reading and writing files, where `-` is standard input or output, with a limit on what is read.

use std::ffi::OsStr;
use std::fs::{self, File, Metadata};
use std::io::{self, IsTerminal, Read, Write};
use std::os::unix::fs::{FileTypeExt, MetadataExt};

/// The most that is read of a file. A call has 1,406 bytes at most, and a text some thousands.
pub const MOST: usize = 1 << 20;

/// What was read, and whether there was more.
pub struct Contents {
    pub bytes: Vec<u8>,
    pub cut: bool,
}

/// Reads a file or standard input. An error is told in words.
pub fn read(name: &OsStr) -> Result<Contents, String> {
    let read = match name == "-" {
        true => read_from(io::stdin().lock()),
        false => File::open(name).and_then(read_from),
    };
    read.map_err(|error| format!("{} cannot be read: {error}", told(name)))
}

fn read_from(source: impl Read) -> io::Result<Contents> {
    let mut bytes = Vec::new();
    source.take(MOST as u64 + 1).read_to_end(&mut bytes)?;
    let cut = bytes.len() > MOST;
    bytes.truncate(MOST);
    Ok(Contents { bytes, cut })
}

/// Writes a file or standard output. An error is told in words.
pub fn write(name: &OsStr, bytes: &[u8]) -> Result<(), String> {
    let (written, told) = match name == "-" {
        true => (write_out(bytes), "standard output".to_string()),
        false => (fs::write(name, bytes), told(name)),
    };
    written.map_err(|error| format!("{told} cannot be written: {error}"))
}

fn write_out(bytes: &[u8]) -> io::Result<()> {
    let mut out = io::stdout().lock();
    out.write_all(bytes)?;
    out.flush()
}

/// Why bytes made from a file may not be written to another, if they may not.
pub fn no_place_for_bytes(from: &OsStr, out: &OsStr) -> Option<String> {
    no_place(from, out, is_terminal(out))
}

fn is_terminal(out: &OsStr) -> bool {
    if out == "-" {
        return io::stdout().is_terminal();
    }
    let is_device = fs::metadata(out).is_ok_and(|data| data.file_type().is_char_device());
    let opened = is_device.then(|| File::options().write(true).open(out));
    matches!(opened, Some(Ok(file)) if file.is_terminal())
}

/// The same, given whether the output is a terminal.
pub fn no_place(from: &OsStr, out: &OsStr, terminal: bool) -> Option<String> {
    if terminal {
        return Some(
            "a call is bytes, and the output is a terminal; name a file with -o".to_string(),
        );
    }
    let source = metadata(from, "/dev/stdin");
    let target = metadata(out, "/dev/stdout");
    let same = source
        .zip(target)
        .is_some_and(|(a, b)| are_one_file(&a, &b));
    let name = told(from);
    same.then(|| {
        format!("{name} would be overwritten with what is made of it; name another file with -o")
    })
}

fn metadata(name: &OsStr, standard: &str) -> Option<Metadata> {
    let name = if name == "-" {
        OsStr::new(standard)
    } else {
        name
    };
    fs::metadata(name).ok().filter(Metadata::is_file)
}

fn are_one_file(a: &Metadata, b: &Metadata) -> bool {
    (a.dev(), a.ino()) == (b.dev(), b.ino())
}

/// A line on standard error. If that cannot be written either, there is nobody left to tell.
pub fn complain(line: &str) {
    say(&format!("call: {line}"));
}

/// The same without the command's name.
pub fn say(line: &str) {
    let _ = writeln!(io::stderr().lock(), "{line}");
}

/// A file's name as messages have it, on one line.
pub fn told(name: &OsStr) -> String {
    match name == "-" {
        true => "standard input".to_string(),
        false => name.to_string_lossy().escape_debug().to_string(),
    }
}

/// A file's name as editors look for it in front of a line and a column.
pub fn placed(name: &OsStr) -> String {
    match name == "-" {
        true => "<stdin>".to_string(),
        false => told(name),
    }
}
