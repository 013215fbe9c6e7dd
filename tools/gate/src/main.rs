//! The commands, which the scripts in `tools/` call.

#![no_main]

use std::ffi::c_int;
use std::path::PathBuf;
use std::{env, io, process};

use gate::{believe, edits, programs, replay_data, slip, system};

const USAGE: &str = "usage:
  gate edits
  gate believe [--write]
  gate replay-data [SEED] [COUNT] [HOSTILE] [TO]
  gate replay-data --check
  gate programs [--only NAME] [PLACER RUNNER]
  gate programs --selftest
  gate slip REFERENCE placer|runner SLIP";

/// In the place of Rust's own start, which opens the descriptors 0 to 2 where they are closed:
/// `slip` must find them as it was given them.
#[no_mangle]
pub extern "C" fn main() -> c_int {
    let arguments: Vec<String> = env::args().skip(1).collect();
    let arguments: Vec<&str> = arguments.iter().map(String::as_str).collect();
    let status = match run(&arguments) {
        Ok(true) => 0,
        Ok(false) => 1,
        Err(error) => {
            eprintln!("{error}");
            1
        }
    };
    system::end_if_interrupted();
    process::exit(status)
}

fn run(arguments: &[&str]) -> io::Result<bool> {
    match arguments {
        ["edits"] => edits::edits(&root()?),
        ["believe", rest @ ..] => believe::believe(&root()?, rest),
        ["replay-data", rest @ ..] => replay_data::replay_data(&root()?, rest),
        ["programs", rest @ ..] => programs::programs(&root()?, rest),
        ["slip", reference, program, slip] => slip::stand_in(reference, program, slip),
        _ => Err(io::Error::other(USAGE)),
    }
}

/// The repository, in which this program is tools/gate/target/release/gate.
fn root() -> io::Result<PathBuf> {
    let program = env::current_exe()?;
    let root = program.ancestors().nth(5);
    root.map(PathBuf::from).ok_or_else(|| io::Error::other("gate: not in tools/gate"))
}
