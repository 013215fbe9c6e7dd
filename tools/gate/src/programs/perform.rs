//! Runs a program once, in a directory of its own, and says what was not as it should be.

use std::ffi::OsString;
use std::fs::{self, File, Permissions};
use std::io;
use std::os::unix::fs::{symlink, PermissionsExt};
use std::os::unix::process::{CommandExt, ExitStatusExt};
use std::path::Path;
use std::process::{Child, Command, ExitStatus};
use std::sync::atomic::{AtomicUsize, Ordering};
use std::thread::scope;
use std::time::Duration;

use super::compare::short;
use super::feed::{feed, feed_named, Patience, Term};
use super::inputs::Parts;
use super::run::{Given, Run};
use super::standard_input::standard_input;
use crate::files::{read, write, Scratch};
use crate::system::{kill_group, make_fifo, unless_interrupted};

/// Seconds that a program has for a run, and that it has once it has been ended in many.
const LIMIT: u64 = 20;
const SHORT_LIMIT: u64 = 1;
const MANY: usize = 24;

/// In how many runs a program has been ended.
static ENDED: AtomicUsize = AtomicUsize::new(0);

/// What was not as it should be in a run of the command, if anything.
pub fn perform(run: &Run, command: &[OsString]) -> io::Result<Option<String>> {
    unless_interrupted()?;
    let scratch = Scratch::new()?;
    let [room, printed, said] = ["room", "printed", "said"].map(|name| scratch.at.join(name));
    fs::create_dir(&room)?;
    for (name, given) in &run.given {
        place(&room.join(name), given)?;
    }
    let input = standard_input(run, &room)?;
    let child = shelled(run, command)
        .current_dir(&room)
        .stdin(input.reads)
        .stdout(File::create(&printed)?)
        .stderr(File::create(&said)?)
        .process_group(0)
        .spawn()?;
    let limit = if ENDED.load(Ordering::Relaxed) < MANY { LIMIT } else { SHORT_LIMIT };
    let term = Term::of(Duration::from_secs(limit));
    let status = match fed_to_its_end(run, &room, child, input.fed, &term)? {
        Some(status) => number(status).to_string(),
        None => {
            ENDED.fetch_add(1, Ordering::Relaxed);
            format!("none in {limit} seconds")
        }
    };
    drop(input.held);
    Ok(differs(run, &read(&printed)?, &read(&said)?, &status))
}

/// Puts what is given at a path.
fn place(path: &Path, given: &Given) -> io::Result<()> {
    match given {
        Given::File(bytes) => write(path, bytes),
        Given::Fifo(_) => make_fifo(path),
        Given::Directory => fs::create_dir(path),
        Given::Loop => symlink(path.file_name().expect("a name"), path),
        Given::Locked => {
            write(path, b"")?;
            fs::set_permissions(path, Permissions::from_mode(0o000))
        }
        Given::Pipe(_) | Given::Socket(_) | Given::Stuck(_) | Given::Reset(_) | Given::Missing => {
            Ok(())
        }
    }
}

fn shelled(run: &Run, command: &[OsString]) -> Command {
    match run.shell {
        Some(line) => {
            let mut shell = Command::new("bash");
            shell.args(["-c", line, "bash"]).args(command);
            shell
        }
        None => {
            let mut plain = Command::new(&command[0]);
            plain.args(&command[1..]);
            plain
        }
    }
}

/// Feeds a program until it ends; none where it had to be ended.
fn fed_to_its_end(
    run: &Run,
    room: &Path,
    mut child: Child,
    fed: Option<(File, &Parts)>,
    term: &Term,
) -> io::Result<Option<ExitStatus>> {
    scope(|scope| {
        let mut feeders = Vec::new();
        for (name, given) in &run.given {
            if let Given::Fifo(parts) = given {
                let path = room.join(name);
                feeders.push(scope.spawn(move || feed_named(&path, parts, term)));
            }
        }
        if let Some((to, parts)) = fed {
            feeders.push(scope.spawn(move || feed(to, parts, term)));
        }
        let status = wait(&mut child, term);
        term.end();
        for feeder in feeders {
            feeder.join().expect("a feeder ends")?;
        }
        status
    })
}

/// Waits for a program's end; ends it where it has had its time, and all that it has started.
fn wait(child: &mut Child, term: &Term) -> io::Result<Option<ExitStatus>> {
    let mut patience = Patience::new();
    loop {
        let is_over = term.is_over();
        let status = child.try_wait()?;
        if status.is_some() || is_over {
            kill_group(child.id());
            child.wait()?;
            return Ok(status);
        }
        patience.wait();
    }
}

/// A status as a number, that of a signal negative.
fn number(status: ExitStatus) -> i32 {
    status.code().unwrap_or_else(|| -status.signal().unwrap_or(0))
}

fn differs(run: &Run, printed: &[u8], said: &[u8], status: &str) -> Option<String> {
    if printed != run.printed {
        return Some(format!("printed {}, not {}", short(printed), short(&run.printed)));
    }
    if said != run.said.as_bytes() {
        return Some(format!("said {}, not {}", short(said), short(run.said.as_bytes())));
    }
    (status != "0").then(|| format!("status {status}, not 0"))
}
