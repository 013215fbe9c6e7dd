//! Compares what the programs and the second program print with what is asked.

use std::collections::HashMap;
use std::ffi::OsString;
use std::sync::atomic::{AtomicUsize, Ordering};
use std::{io, thread};

use super::perform::perform;
use super::run::{Given, Program, Run, INPUT};
use crate::files::{write, Scratch};
use crate::second::Second;

/// So many runs at once.
const WORKERS: usize = 8;

/// The command lines of both programs.
pub struct Commands {
    pub placer: Vec<OsString>,
    pub runner: Vec<OsString>,
}

/// Performs the runs; those that are not as they should be, and what was not.
pub fn compare<'r>(chosen: &[&'r Run], commands: &Commands) -> io::Result<Vec<(&'r Run, String)>> {
    differences(chosen, |run| match run.program {
        Program::Placer => perform(run, &commands.placer),
        Program::Runner => perform(run, &commands.runner),
    })
}

/// Asks the second program once for each input of the runs in which all can be read: it must agree
/// with what is asked.
pub fn second_opinions<'r>(
    chosen: &[&'r Run],
    second: &Second,
) -> io::Result<Vec<(&'r Run, String)>> {
    let mut inputs = HashMap::new();
    for run in chosen.iter().filter(|run| !run.printed.is_empty() && run.said.is_empty()) {
        let given: Vec<Vec<u8>> = run.given.iter().map(|(_, given)| given.bytes()).collect();
        inputs.insert((run.program, given), *run);
    }
    let asked: Vec<&Run> = inputs.into_values().collect();
    differences(&asked, |run| second_opinion(run, second))
}

fn second_opinion(run: &Run, second: &Second) -> io::Result<Option<String>> {
    let scratch = Scratch::new()?;
    for (name, given) in &run.given {
        if !matches!(given, Given::Missing) {
            write(&scratch.at.join(name), &given.bytes())?;
        }
    }
    let printed = match run.program {
        Program::Placer => second.placer(&scratch.at.join(INPUT))?,
        Program::Runner => second.runner(&scratch.at)?,
    };
    let (theirs, ours) = (short(&printed), short(&run.printed));
    Ok((printed != run.printed).then(|| format!("the second program prints {theirs}, not {ours}")))
}

/// The runs of which `find` has something to say, with what it says, in their order; it is asked of
/// several at once.
fn differences<'r>(
    runs: &[&'r Run],
    find: impl Fn(&Run) -> io::Result<Option<String>> + Sync,
) -> io::Result<Vec<(&'r Run, String)>> {
    let next = AtomicUsize::new(0);
    let work = || {
        let mut found = Vec::new();
        loop {
            let at = next.fetch_add(1, Ordering::Relaxed);
            let Some(run) = runs.get(at) else { return Ok(found) };
            match find(run) {
                Ok(None) => {}
                Ok(Some(what)) => found.push((at, what)),
                Err(error) => return Err(io::Error::other(format!("{}: {error}", run.name))),
            }
        }
    };
    let mut found = Vec::new();
    thread::scope(|scope| {
        let workers: Vec<_> = (0..WORKERS).map(|_| scope.spawn(work)).collect();
        for worker in workers {
            found.extend(worker.join().expect("a worker ends")?);
        }
        io::Result::Ok(())
    })?;
    found.sort();
    Ok(found.into_iter().map(|(at, what)| (runs[at], what)).collect())
}

/// Bytes to show: the first and last of many lines.
pub fn short(bytes: &[u8]) -> String {
    let text = String::from_utf8_lossy(bytes);
    let lines: Vec<String> = text.lines().map(|line| line.chars().take(80).collect()).collect();
    let shown = match &lines[..] {
        [first, _, .., last] => format!("{first} / .. ({} lines) / {last}", lines.len()),
        few => few.join(" / "),
    };
    if shown.is_empty() {
        "nothing".into()
    } else {
        shown
    }
}
