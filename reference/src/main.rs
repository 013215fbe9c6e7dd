//! The commands. Bytes in, bytes out.

use std::fs;
use std::io::{self, Read, Write};
use std::num::ParseIntError;
use std::path::Path;
use std::process::ExitCode;
use std::str::FromStr;

use reference::cases::asks::Ask;
use reference::cases::counted::{self, counted};
use reference::cases::divided::{self, divided};
use reference::cases::loaded::{self, loaded};
use reference::cases::made::{made, small_list};
use reference::cases::numbered::{self, numbered};
use reference::cases::queued::{self, queued};
use reference::cases::{write_cases, Size};
use reference::hostile::compare::{compare, Plan};
use reference::hostile::loads;
use reference::hostile::Bases;
use reference::load::LINE;
use reference::{lines, tally};

const USAGE: &str = "usage:
  reference placer < FILE
  reference runner DIR
  reference points DIR
  reference load SEED THREADS WANTED < FILE
  reference replay-points DIR
  reference replay-tries DIR
  reference replay-pairs DIR
  reference replay-load DIR
  reference cases SEED COUNT DIR [small]
  reference tries-cases [DIR]
  reference pairs-cases [DIR]
  reference numbers-cases [DIR]
  reference queue-cases [DIR]
  reference remainders-cases [DIR]
  reference load-cases [DIR]
  reference tally DIR
  reference hostile-cases SEED COUNT DIR
  reference hostile SEED COUNT WORKERS PROGRAMS KEPT [UNDER..]
  reference hostile-loads SEED COUNT KEPT COMMAND..";

fn main() -> ExitCode {
    let arguments: Vec<String> = std::env::args().skip(1).collect();
    let arguments: Vec<&str> = arguments.iter().map(String::as_str).collect();
    let done = match arguments.as_slice() {
        ["placer"] => placer(),
        ["runner", directory] => on_case(directory, lines::runner),
        ["points", directory] => on_case(directory, lines::points_lines),
        ["replay-points", directory] => on_case(directory, lines::replay_points),
        ["replay-tries", directory] => on_case(directory, |file, _| lines::replay_tries(file)),
        ["replay-pairs", directory] => on_case(directory, |file, _| lines::replay_pairs(file)),
        ["load", seed, threads, wanted] => load(seed, threads, wanted),
        ["replay-load", directory] => replay_load(Path::new(directory)),
        ["cases", seed, count, directory] => cases(seed, count, directory, Size::FULL),
        ["cases", seed, count, directory, "small"] => cases(seed, count, directory, Size::SMALL),
        ["tries-cases"] => io::stdout().write_all(small_list().as_bytes()),
        ["tries-cases", directory] => tries_cases(Path::new(directory)),
        ["pairs-cases"] => io::stdout().write_all(counted::small_list().as_bytes()),
        ["pairs-cases", directory] => pairs_cases(Path::new(directory)),
        ["numbers-cases"] => io::stdout().write_all(numbered::list().as_bytes()),
        ["numbers-cases", directory] => numbers_cases(Path::new(directory)),
        ["queue-cases"] => io::stdout().write_all(queued::small_list().as_bytes()),
        ["queue-cases", directory] => queue_cases(Path::new(directory)),
        ["remainders-cases"] => io::stdout().write_all(divided::small_list().as_bytes()),
        ["remainders-cases", directory] => remainders_cases(Path::new(directory)),
        ["load-cases"] => io::stdout().write_all(loaded::small_list().as_bytes()),
        ["load-cases", directory] => load_cases(Path::new(directory)),
        ["tally", directory] => tally(Path::new(directory)),
        ["hostile-cases", seed, count, directory] => hostile_cases(seed, count, directory),
        ["hostile", seed, count, workers, programs, kept, ref under @ ..] => {
            hostile(seed, count, workers, programs, kept, under)
        }
        ["hostile-loads", seed, count, kept, ref command @ ..] => {
            hostile_loads(seed, count, kept, command)
        }
        _ => Err(io::Error::other(USAGE)),
    };
    match done {
        Ok(()) => ExitCode::SUCCESS,
        Err(error) => {
            eprintln!("{error}");
            ExitCode::FAILURE
        }
    }
}

fn placer() -> io::Result<()> {
    let mut file = Vec::new();
    io::stdin().read_to_end(&mut file)?;
    io::stdout().write_all(&lines::placer(&file))
}

/// Prints the answer, the count of frames and the frames, for a buffer that is long enough.
fn load(seed: &str, threads: &str, wanted: &str) -> io::Result<()> {
    let mut file = Vec::new();
    io::stdin().read_to_end(&mut file)?;
    let [threads, wanted] = [parsed(threads)?, parsed(wanted)?];
    let ask = Ask { seed: parsed(seed)?, threads, wanted, room: room_for(wanted) };
    io::stdout().write_all(&lines::load_lines(&file, ask))
}

/// Seven bytes a wanted frame; none for more than a gigabyte, which is refused then.
fn room_for(wanted: usize) -> usize {
    wanted.checked_mul(LINE).filter(|room| *room <= 1 << 30).unwrap_or(0)
}

/// Prints the lines for the file and the ask in a directory.
fn replay_load(directory: &Path) -> io::Result<()> {
    let file = read_or_empty(&directory.join("monitor.txt"))?;
    let ask = Ask::parsed(&fs::read_to_string(directory.join("load.txt"))?);
    let ask = ask.ok_or(io::Error::other("load.txt has no seed, threads, count and length"))?;
    io::stdout().write_all(&lines::replay_load(&file, ask))
}

/// Prints the lines for the file and the trace in a directory.
fn on_case(directory: &str, lines: fn(&[u8], &[u8]) -> Vec<u8>) -> io::Result<()> {
    let directory = Path::new(directory);
    let monitor = read_or_empty(&directory.join("monitor.txt"))?;
    let trace = read_or_empty(&directory.join("trace.txt"))?;
    io::stdout().write_all(&lines(&monitor, &trace))
}

/// A missing file reads as an empty one.
fn read_or_empty(path: &Path) -> io::Result<Vec<u8>> {
    match fs::read(path) {
        Err(error) if error.kind() == io::ErrorKind::NotFound => Ok(Vec::new()),
        read => read,
    }
}

fn cases(seed: &str, count: &str, directory: &str, size: Size) -> io::Result<()> {
    write_cases(parsed(seed)?, parsed(count)?, Path::new(directory), size)
}

fn parsed<T: FromStr<Err = ParseIntError>>(number: &str) -> io::Result<T> {
    number.parse().map_err(io::Error::other)
}

/// Writes all cases that are made for tries.
fn tries_cases(directory: &Path) -> io::Result<()> {
    made().iter().enumerate().try_for_each(|(number, made)| made.case.write(directory, number))
}

/// Writes all cases whose touched pairs are counted by hand.
fn pairs_cases(directory: &Path) -> io::Result<()> {
    counted().iter().enumerate().try_for_each(|(number, one)| one.case.write(directory, number))
}

/// Writes all cases whose states' numbers are worked out by hand.
fn numbers_cases(directory: &Path) -> io::Result<()> {
    numbered().iter().enumerate().try_for_each(|(number, one)| one.case.write(directory, number))
}

/// Writes all cases about the order of waiters.
fn queue_cases(directory: &Path) -> io::Result<()> {
    queued().iter().enumerate().try_for_each(|(number, one)| one.case.write(directory, number))
}

/// Writes all cases about remainders.
fn remainders_cases(directory: &Path) -> io::Result<()> {
    divided().iter().enumerate().try_for_each(|(number, one)| one.case.write(directory, number))
}

/// Writes all cases about loads, each with its own ask.
fn load_cases(directory: &Path) -> io::Result<()> {
    let mut numbered = loaded().into_iter().enumerate();
    numbered.try_for_each(|(number, one)| one.case().write_asking(one.ask, directory, number))
}

fn tally(directory: &Path) -> io::Result<()> {
    io::stdout().write_all(tally::tally(directory)?.as_bytes())
}

fn hostile_cases(seed: &str, count: &str, directory: &str) -> io::Result<()> {
    let mut bases = Bases::of(parsed(seed)?);
    for number in 0..parsed(count)? {
        bases.input(number).write(Path::new(directory), number)?;
    }
    Ok(())
}

/// Fails when the programs differ anywhere.
fn hostile(
    seed: &str,
    count: &str,
    workers: &str,
    programs: &str,
    kept: &str,
    under: &[&str],
) -> io::Result<()> {
    let plan = Plan {
        seed: parsed(seed)?,
        count: parsed(count)?,
        workers: parsed(workers)?,
        programs: fs::canonicalize(programs)?,
        kept: kept.into(),
        under: under.iter().map(|word| word.to_string()).collect(),
    };
    let outcome = compare(&plan)?;
    print!("{}", outcome.text());
    match outcome.is_good(&plan) {
        true => Ok(()),
        false => Err(io::Error::other("the programs differ, or not all inputs were run")),
    }
}

/// Fails when the program gives something else anywhere, or does not end well.
fn hostile_loads(seed: &str, count: &str, kept: &str, command: &[&str]) -> io::Result<()> {
    let mut program = loads::Program::started(command)?;
    let call = |file: &[u8], ask| program.ask(file, ask);
    let outcome = loads::compare(parsed(seed)?, parsed(count)?, Path::new(kept), call)?;
    print!("{}", outcome.text());
    match outcome.differences == 0 && program.end()? {
        true => Ok(()),
        false => Err(io::Error::other("the loads differ, or the program did not end well")),
    }
}
