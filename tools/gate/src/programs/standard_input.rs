//! Makes the standard input of a run.

use std::fs::File;
use std::io::{self, pipe, Write};
use std::os::fd::OwnedFd;
use std::os::unix::net::UnixStream;
use std::path::Path;
use std::process::Stdio;

use super::inputs::Parts;
use super::run::{Given, Run, INPUT};
use crate::system::never_wait;

pub struct Input<'a> {
    pub reads: Stdio,
    /// Where to write the parts, if it is to be fed.
    pub fed: Option<(File, &'a Parts)>,
    /// What must stay open until the program has ended.
    pub held: Option<File>,
}

/// A named pipe or a file besides is for the program itself, or its shell, to open.
pub fn standard_input<'a>(run: &'a Run, room: &Path) -> io::Result<Input<'a>> {
    let given = run.given.iter().find(|(name, _)| *name == INPUT);
    match given.map(|(_, given)| given) {
        Some(Given::File(_)) => Ok(unfed(File::open(room.join(INPUT))?)),
        Some(Given::Pipe(parts)) => {
            let (reads, writes) = pipe_ends()?;
            Ok(Input { fed: Some((writes, parts)), ..unfed(reads) })
        }
        Some(Given::Socket(parts)) => {
            let (theirs, ours) = UnixStream::pair()?;
            Ok(Input { fed: Some((file(ours), parts)), ..unfed(file(theirs)) })
        }
        Some(Given::Stuck(bytes)) => stuck(bytes),
        Some(Given::Reset(bytes)) => reset(bytes),
        _ => Ok(Input { reads: Stdio::null(), fed: None, held: None }),
    }
}

fn unfed<'a>(reads: File) -> Input<'a> {
    Input { reads: reads.into(), fed: None, held: None }
}

fn file(end: impl Into<OwnedFd>) -> File {
    File::from(end.into())
}

fn pipe_ends() -> io::Result<(File, File)> {
    let (reads, writes) = pipe()?;
    Ok((file(reads), file(writes)))
}

fn stuck<'a>(bytes: &[u8]) -> io::Result<Input<'a>> {
    let (reads, mut writes) = pipe_ends()?;
    never_wait(&reads)?;
    never_wait(&writes)?;
    writes.write_all(bytes)?;
    Ok(Input { held: Some(writes), ..unfed(reads) })
}

/// What is closed with bytes unread breaks the connection; the other side reads what it has, and
/// then fails.
fn reset<'a>(bytes: &[u8]) -> io::Result<Input<'a>> {
    let (mut theirs, mut ours) = UnixStream::pair()?;
    ours.write_all(bytes)?;
    theirs.write_all(b"?")?;
    Ok(unfed(file(theirs)))
}
