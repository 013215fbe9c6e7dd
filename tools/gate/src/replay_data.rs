//! Makes what the program `replay` is run on: the bench examples of document 01, the second
//! program's cases for tries, for touched pairs, for states' numbers, for the order of waiters and
//! for remainders, made by hand, its drawn cases, and hostile input.
//!
//! TO/data/cases.bin has for each case the lengths of a monitor file and a trace, four bytes each,
//! the lowest first, then both; TO/stdout what the second program prints for each as placer, then
//! as runner, then five lines of ten digits about its call `points`, then lines of ten digits about
//! tries, and then one about touched pairs.
//!
//! `points` is called twice, from the start values' state (from state 0 where the file is refused),
//! with a buffer of bytes A5. Where N is 49 * (length of the trace / 7 + 1):
//!
//! - with N + 49 bytes: the plain machine's answer; the table's; 00, the count of points (four
//!   digits) and a checksum of the whole buffer afterwards (four digits);
//! - with N - 1 bytes: the plain machine's answer; 00, the count and the checksum again.
//!
//! The checksum begins with 1, and each byte b makes it (sum * 31 + b) % 65521.
//!
//! About tries, first one line: of an accepted file 00, the chosen ones (four digits) and how many
//! tries there are (four digits); of a refused one its refusal. Then, of a file that all checks up to
//! 8 pass, one line for each try: ten noughts if it is chosen; FF and eight noughts if it is false
//! at the start; else the pass in which it is broken (two digits), the region and the state (four
//! digits each).
//!
//! About touched pairs one line: 00, how many there are (four digits) and the length of the table in
//! bytes (four digits); of a refused file both are 0.

use std::path::{Path, PathBuf};
use std::process::{Command, Stdio};
use std::{fs, io};

use crate::files::{children, read, write, Scratch};
use crate::second::Second;
use crate::system::{clean_up_first, unless_interrupted};

const USAGE: &str = "\
usage: tools/replay-data [SEED] [COUNT] [HOSTILE] [TO]
       tools/replay-data --check";

/// What replay reads.
const MOST_CASES: usize = 1000;
const MOST_FILE: usize = 9000;
const MOST_TRACE: usize = 65536;

/// So many hostile traces may be long.
const LONG: u64 = 10000;
const MOST_LONG: usize = 3;

const BOX: &str = "monitor box { var full = 0 in 0..1; keep true; \
                   method put { waituntil (full == 0) { full := 1; } } \
                   method get { waituntil (full == 1) { full := 0; } } }";

const EQUAL: &str = "monitor m { var x = 0 in 0..63; var y = 0 in 0..63; keep true; \
                     method a { waituntil (x == y) { if (x < 63) { x := x + 1; } } } }";

pub fn replay_data(root: &Path, arguments: &[&str]) -> io::Result<bool> {
    let is_check = arguments == ["--check"];
    let given = if is_check { &[] } else { arguments };
    if given.len() > 4 {
        return Err(io::Error::other(USAGE));
    }
    let or = |at: usize, usual| given.get(at).copied().unwrap_or(usual);
    let to = given.get(3).map_or(root.join("crates/replay"), PathBuf::from);
    clean_up_first();
    let second = Second::built(root)?;
    let made = Made::by(&second, or(0, "31"), or(1, "300"), or(2, "267"))?;
    for (name, bytes) in [("data/cases.bin", &made.data), ("stdout", &made.told)] {
        let path = to.join(name);
        if !is_check {
            fs::create_dir_all(path.parent().expect("in a directory"))?;
            write(&path, bytes)?;
        } else if read(&path)? != *bytes {
            let name = path.strip_prefix(root).unwrap_or(&path).display();
            let what = "is not what the second program makes: run tools/replay-data";
            return Err(io::Error::other(format!("replay-data: {name} {what}")));
        }
    }
    println!("replay-data: {} cases, {} bytes", made.cases, made.data.len());
    Ok(true)
}

/// Both files of replay.
struct Made {
    cases: usize,
    data: Vec<u8>,
    told: Vec<u8>,
}

impl Made {
    /// From the bench examples, the cases made by hand and so many drawn ones, or none of them if
    /// there are to be 0, and from the first hostile inputs.
    fn by(second: &Second, seed: &str, count: &str, hostile: &str) -> io::Result<Made> {
        let scratch = Scratch::new()?;
        let [bench, tries, pairs, numbers, queues, remainders, drawn, damaged] =
            ["bench", "tries", "pairs", "numbers", "queues", "remainders", "cases", "hostile"]
                .map(|name| scratch.at.join(name));
        if count != "0" {
            write_bench(second, &bench)?;
            told(second, "tries-cases", &tries)?;
            told(second, "pairs-cases", &pairs)?;
            told(second, "numbers-cases", &numbers)?;
            told(second, "queue-cases", &queues)?;
            told(second, "remainders-cases", &remainders)?;
        }
        second.write("cases", seed, count, &drawn)?;
        second.write("hostile-cases", seed, hostile, &damaged)?;
        let mut cases = Vec::new();
        for directory in [&bench, &tries, &pairs, &numbers, &queues, &remainders, &drawn] {
            cases.extend(children(directory)?);
        }
        cases.extend(few_long(&damaged)?);
        if cases.len() > MOST_CASES {
            let count = cases.len();
            let what = format!("replay-data: {count} cases, and replay reads {MOST_CASES}");
            return Err(io::Error::other(what));
        }
        let mut made = Made { cases: cases.len(), data: Vec::new(), told: Vec::new() };
        for case in &cases {
            made.add(second, case)?;
        }
        Ok(made)
    }

    fn add(&mut self, second: &Second, case: &Path) -> io::Result<()> {
        // A longer file gets 1 all the same, and runner judges a longer trace by its first bytes.
        let (mut file, mut trace) =
            (read(&case.join("monitor.txt"))?, read(&case.join("trace.txt"))?);
        file.truncate(MOST_FILE);
        trace.truncate(MOST_TRACE);
        for bytes in [&file, &trace] {
            self.data.extend((bytes.len() as u32).to_le_bytes());
        }
        self.told.extend(read(&case.join("placer.txt"))?);
        self.told.extend(read(&case.join("runner.txt"))?);
        // `points` takes a trace of any length, so it gets what replay reads.
        write(&case.join("monitor.txt"), &file)?;
        write(&case.join("trace.txt"), &trace)?;
        self.told.extend(second.replay_points(case)?);
        self.told.extend(told(second, "replay-tries", case)?);
        self.told.extend(told(second, "replay-pairs", case)?);
        self.data.extend(file);
        self.data.extend(trace);
        Ok(())
    }
}

/// What the second program prints when it is given a directory.
fn told(second: &Second, what: &str, directory: &Path) -> io::Result<Vec<u8>> {
    let mut command = Command::new(&second.program);
    let output = command.arg(what).arg(directory).stderr(Stdio::inherit()).output()?;
    unless_interrupted()?;
    match output.status.success() {
        true => Ok(output.stdout),
        false => Err(io::Error::other(format!("{command:?}: {}", output.status))),
    }
}

/// The hostile inputs without most of the long ones.
fn few_long(directory: &Path) -> io::Result<Vec<PathBuf>> {
    let mut cases = Vec::new();
    let mut long = 0;
    for case in children(directory)? {
        let is_long = fs::metadata(case.join("trace.txt"))?.len() > LONG;
        long += usize::from(is_long);
        if !is_long || long <= MOST_LONG {
            cases.push(case);
        }
    }
    Ok(cases)
}

/// Writes the bench examples as cases.
fn write_bench(second: &Second, directory: &Path) -> io::Result<()> {
    for (number, (file, trace)) in bench().iter().enumerate() {
        let at = directory.join(format!("{number:02}"));
        fs::create_dir_all(&at)?;
        write(&at.join("monitor.txt"), file.as_bytes())?;
        write(&at.join("trace.txt"), trace.as_bytes())?;
        write(&at.join("placer.txt"), &second.placer(&at.join("monitor.txt"))?)?;
        write(&at.join("runner.txt"), &second.runner(&at)?)?;
    }
    Ok(())
}

/// The bench examples: a file and a trace each.
fn bench() -> Vec<(String, String)> {
    let cases = [
        (BOX.to_string(), ""),
        (BOX.to_string(), "000100\n010001\n000101\n"),
        (BOX.to_string(), "000100\n000101\n"),
        (BOX.to_string(), "000100\n000100\n"),
        (BOX.to_string(), "010100\n000100\n020001\n010101\n"),
        (BOX.to_string(), "000100\n010001\n020101\n000100\n"),
        (BOX.to_string(), "000100\n010100\n020001\n030101\n010100\n"),
        (String::new(), ""),
        ("monitor m".to_string(), ""),
        (" ".repeat(8193), ""),
        (BOX.replace("keep true", "keep full == 1"), ""),
        (EQUAL.to_string(), "000001\n000001\n"),
    ];
    // A long run, so that there are many points.
    let long = (BOX.to_string(), "000100\n010001\n000101\n".repeat(1000));
    cases.into_iter().map(|(file, trace)| (file, trace.to_string())).chain([long]).collect()
}
