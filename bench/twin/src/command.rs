//! The command line that both programs of this crate have.

use std::fs;
use std::io::{self, Read, Write};
use std::path::Path;
use std::process::ExitCode;

pub fn main(placer: fn(&[u8]) -> Vec<u8>, runner: fn(&[u8], &[u8]) -> Vec<u8>) -> ExitCode {
    let arguments: Vec<String> = std::env::args().skip(1).collect();
    let arguments: Vec<&str> = arguments.iter().map(String::as_str).collect();
    let done = match arguments[..] {
        ["placer"] => read_stdin().map(|file| placer(&file)),
        ["runner", directory] => read_both(Path::new(directory)).map(|(f, t)| runner(&f, &t)),
        _ => Err(io::Error::other("usage: placer < FILE, or runner DIR")),
    };
    match done.and_then(|lines| io::stdout().write_all(&lines)) {
        Ok(()) => ExitCode::SUCCESS,
        Err(error) => {
            eprintln!("{error}");
            ExitCode::FAILURE
        }
    }
}

fn read_stdin() -> io::Result<Vec<u8>> {
    let mut file = Vec::new();
    io::stdin().read_to_end(&mut file)?;
    Ok(file)
}

fn read_both(directory: &Path) -> io::Result<(Vec<u8>, Vec<u8>)> {
    let file = read_or_empty(&directory.join("monitor.txt"))?;
    let trace = read_or_empty(&directory.join("trace.txt"))?;
    Ok((file, trace))
}

/// A missing file reads as an empty one.
fn read_or_empty(path: &Path) -> io::Result<Vec<u8>> {
    match fs::read(path) {
        Err(error) if error.kind() == io::ErrorKind::NotFound => Ok(Vec::new()),
        read => read,
    }
}
