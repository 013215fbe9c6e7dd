//! Reading hand-ins. Names and errors are told so that nothing in them can harm a terminal.
use std::ffi::OsStr;
use std::fs::File;
use std::io::{self, Read};
use std::path::Path;

/// A file of more bytes is refused with 1, whatever follows: one byte more is all that is read.
pub const FILE_BYTES: u64 = 8192;

/// What could not be read or written, and why.
#[derive(Debug)]
pub struct Failed {
    pub what: String,
    pub why: String,
}

impl Failed {
    pub fn new(what: impl Into<String>, error: &io::Error) -> Failed {
        Failed { what: what.into(), why: system_words(error) }
    }
}

/// The system's words for an error, without its number.
pub fn system_words(error: &io::Error) -> String {
    let text = error.to_string();
    match text.find(" (os error") {
        Some(end) => text[..end].to_string(),
        None => text,
    }
}

/// A name as it is shown: letters and digits of any script and printable ASCII; anything else as `?`.
pub fn name_text(name: &OsStr) -> String {
    let keep = |c: char| if c.is_ascii() { !c.is_ascii_control() } else { c.is_alphanumeric() };
    name.to_string_lossy().chars().map(|c| if keep(c) { c } else { '?' }).collect()
}

/// The name by which an argument is told: `-` is standard input.
pub fn told(argument: &OsStr) -> String {
    if argument == "-" {
        "standard input".into()
    } else {
        name_text(argument)
    }
}

fn read_from(source: impl Read, most: Option<u64>) -> io::Result<Vec<u8>> {
    let mut bytes = Vec::new();
    match most {
        Some(most) => source.take(most).read_to_end(&mut bytes)?,
        None => { source }.read_to_end(&mut bytes)?,
    };
    Ok(bytes)
}

fn read(argument: &OsStr, most: Option<u64>) -> Result<Vec<u8>, Failed> {
    let bytes = if argument == "-" {
        read_from(io::stdin().lock(), most)
    } else {
        File::open(Path::new(argument)).and_then(|file| read_from(file, most))
    };
    bytes.map_err(|error| Failed::new(told(argument), &error))
}

/// A monitor file, as much of it as is needed to judge it.
pub fn monitor(argument: &OsStr) -> Result<Vec<u8>, Failed> {
    read(argument, Some(FILE_BYTES + 1))
}

/// A trace, whole.
pub fn trace(argument: &OsStr) -> Result<Vec<u8>, Failed> {
    read(argument, None)
}
