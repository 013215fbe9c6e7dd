//! Runs placer and runner on input at both sides of every limit of reading, and where reading or
//! writing fails, and compares what they print, byte for byte, with what document 01 asks and the
//! second program prints.

mod compare;
mod feed;
pub mod inputs;
mod perform;
pub mod run;
pub mod runs;
mod selftest;
mod standard_input;

use std::collections::BTreeMap;
use std::ffi::OsString;
use std::os::unix::fs::PermissionsExt;
use std::path::{absolute, Path};
use std::{fs, io};

use crate::files::write;
use crate::second::Second;
use crate::system::clean_up_first;
use compare::{compare, second_opinions, Commands};
use run::Run;
use runs::runs;
use selftest::selftest;

const USAGE: &str = "\
usage: tools/programs [--only NAME] [PLACER RUNNER]     (default: crates/placer/out/placer crates/runner/out/runner)
       tools/programs --selftest                        (stand-ins that read or write wrongly must each be found out)";

pub fn programs(root: &Path, arguments: &[&str]) -> io::Result<bool> {
    let (only, programs) = match arguments {
        ["--only", name, rest @ ..] => (*name, rest),
        _ => ("", arguments),
    };
    clean_up_first();
    match programs {
        ["--selftest"] => selftest(root),
        [] => {
            let [placer, runner] =
                ["placer", "runner"].map(|name| root.join("crates").join(name).join("out").join(name));
            try_out(root, only, &placer, &runner, "")
        }
        [placer, runner] if !placer.starts_with('-') => {
            let named = format!(" {placer} {runner}");
            try_out(root, only, Path::new(placer), Path::new(runner), &named)
        }
        _ => Err(io::Error::other(USAGE)),
    }
}

/// Runs both programs in all runs whose names begin with `only`. How the programs were named on the
/// command line is shown where a run is not as it should be.
fn try_out(
    root: &Path,
    only: &str,
    placer: &Path,
    runner: &Path,
    named_as: &str,
) -> io::Result<bool> {
    let second = Second::built(root)?;
    let commands = Commands { placer: vec![found(placer)?], runner: vec![found(runner)?] };
    let kept = root.join("target/programs");
    let _ = fs::remove_dir_all(&kept);
    let all = runs();
    let chosen = named(&all, only);
    let mut wrong = BTreeMap::new();
    for (run, what) in compare(&chosen, &commands)? {
        keep(run, &kept)?;
        wrong.insert(&run.name, what);
    }
    for (run, what) in second_opinions(&chosen, &second)? {
        wrong.insert(&run.name, what);
    }
    for (name, what) in &wrong {
        println!("tools/programs --only {name}{named_as}: {what}");
    }
    if !wrong.is_empty() {
        println!("programs: these are the commands to run each again; the input of each is in target/programs");
    }
    let good = chosen.len() - wrong.len();
    println!("programs: {good} runs as they should be, {} not", wrong.len());
    Ok(!chosen.is_empty() && wrong.is_empty())
}

/// The whole path of a program that is there.
fn found(program: &Path) -> io::Result<OsString> {
    let path = fs::canonicalize(program).or_else(|_| absolute(program))?;
    match fs::metadata(&path) {
        Ok(about) if about.is_file() && about.permissions().mode() & 0o111 != 0 => Ok(path.into()),
        _ => Err(io::Error::other(format!(
            "programs: no program {}: 'tools/fresh placer runner' proves and builds both",
            path.display()
        ))),
    }
}

/// The runs whose names begin so.
fn named<'r>(runs: &'r [Run], start: &str) -> Vec<&'r Run> {
    runs.iter().filter(|run| run.name.starts_with(start)).collect()
}

/// Keeps what a run was given.
fn keep(run: &Run, kept: &Path) -> io::Result<()> {
    let at = kept.join(&run.name);
    fs::create_dir_all(&at)?;
    for (name, given) in &run.given {
        write(&at.join(name), &given.bytes())?;
    }
    Ok(())
}
