//! The examples of the repository: what they say the programs print, and what the
//! table's machine does when a line is struck out of a table.

mod common;
use common::{places, BOX};
use reference::frames::frames;
use reference::lines::{placer, runner};
use reference::machines::Machines;
use reference::table::{table_lines, Entry};
use reference::{check, place, run, Answer, Machine, Place, Record};
use std::fs;
use std::path::{Path, PathBuf};

fn examples() -> PathBuf {
    Path::new(env!("CARGO_MANIFEST_DIR")).join("../examples")
}

/// A file's text, empty if it is missing.
fn text(path: &Path) -> Vec<u8> {
    fs::read(path).unwrap_or_default()
}

/// The directories below a path that hold a monitor.txt.
fn directories(path: &Path) -> Vec<PathBuf> {
    let mut found = Vec::new();
    for entry in fs::read_dir(path).unwrap() {
        let directory = entry.unwrap().path();
        if directory.join("monitor.txt").exists() {
            found.push(directory);
        } else if directory.is_dir() {
            found.extend(directories(&directory));
        }
    }
    found
}

#[test]
fn examples_hold_what_the_programs_print() {
    let directories = directories(&examples());
    assert!(directories.len() > 30);
    for at in directories {
        let monitor = text(&at.join("monitor.txt"));
        assert_eq!(placer(&monitor), text(&at.join("table.txt")), "{at:?}");
        let printed = runner(&monitor, &text(&at.join("trace.txt")));
        assert_eq!(printed, text(&at.join("lines.txt")), "{at:?}");
    }
}

/// A directory N-name of refusals has refusal N on the last line that is printed.
#[test]
fn refusals_are_what_their_names_say() {
    let mut seen = Vec::new();
    for at in directories(&examples().join("refusals")) {
        let name = at.file_name().unwrap().to_str().unwrap().to_string();
        let number: u8 = name.split('-').next().unwrap().parse().unwrap();
        let lines = String::from_utf8(text(&at.join("lines.txt"))).unwrap();
        assert!(lines.lines().last().unwrap().starts_with(&format!("{number:02X}")), "{name}");
        seen.push(number);
    }
    seen.sort();
    seen.dedup();
    assert_eq!(seen, [1, 2, 3, 4, 5, 6, 7, 8, 9, 12, 13, 14, 15]);
}

/// The two that only a call of the library can give: a buffer one byte short, and
/// a start state that does not exist or is not kept.
#[test]
fn ten_and_eleven() {
    assert_eq!(places(place(BOX.as_bytes(), 17)), (10, 0, 0));
    assert_eq!(places(place(BOX.as_bytes(), 18)), (0, 0, 0));
    let robin = text(&examples().join("round-robin/monitor.txt"));
    for (start, number) in [(2, 0), (3, 11), (4, 11)] {
        assert_eq!(places(run(&robin, b"", start, Machine::Table)), (number, 0, 0));
    }
}

/// The breaker example with a table of its own for the table's machine.
struct Breaker {
    machines: Machines,
    frames: Vec<reference::frames::Frame>,
}

impl Breaker {
    fn with(table: &[Entry]) -> Breaker {
        let at = examples().join("breaker");
        let mut machines = Machines::of(check(&text(&at.join("monitor.txt"))).unwrap());
        machines.entries = table.to_vec();
        Breaker { machines, frames: frames(&text(&at.join("trace.txt"))).unwrap() }
    }

    /// The records before the first refusal, the start included, and that refusal.
    fn records(&self, leave_out: &[usize]) -> (Vec<Record>, Option<Answer>) {
        let start = self.machines.monitor.start_number();
        let mut records = vec![self.machines.start(start).unwrap()];
        for (index, frame) in self.frames.iter().enumerate() {
            if !leave_out.contains(&index) {
                match self.machines.step(records.last().unwrap(), *frame, Machine::Table) {
                    Ok(record) => records.push(record),
                    Err(number) => return (records, Some(Answer::at(number, index))),
                }
            }
        }
        (records, None)
    }
}

fn breaker_table() -> Vec<Entry> {
    Machines::of(check(&text(&examples().join("breaker/monitor.txt"))).unwrap()).entries
}

const PANEL: usize = 3;
const PANEL_GUARD: usize = 2;
const CLOSED: usize = 1;
const LAMP: usize = 4;

#[test]
fn the_panel_is_right_by_the_whole_table() {
    let (records, refusal) = Breaker::with(&breaker_table()).records(&[]);
    assert_eq!(refusal, None);
    let last = records.last().unwrap();
    assert_eq!((last.values[CLOSED], last.values[LAMP]), (0, 0));
}

/// Frame n leads from records[n] to records[n + 1].
#[test]
fn the_panel_sleeps_on_by_the_struck_table() {
    let whole = breaker_table();
    let struck: Vec<Entry> = whole[..whole.len() - 1].to_vec();
    assert_eq!(table_lines(&struck), text(&examples().join("breaker/struck.txt")));
    assert!(struck.iter().all(|entry| entry.guard != PANEL_GUARD));

    let breaker = Breaker::with(&struck);
    let (records, refusal) = breaker.records(&[]);
    assert_eq!(refusal, Some(Answer::at(14, 10)));
    let holds = |record: &Record| breaker.machines.monitor.guard_holds(PANEL_GUARD, &record.values);
    for (index, record) in records.iter().enumerate().skip(6) {
        // It waits from frame 5 on, its guard holds from frame 8 on, and it is never
        // notified.
        assert_eq!(record.places[PANEL], Place::Waiting(4));
        assert!(!record.notified[PANEL]);
        assert_eq!(holds(record), index > 8);
    }
    let last = records.last().unwrap();
    assert_eq!(last.values, [2, 0, 2, 1, 1]);

    // The others notice nothing.
    let (records, refusal) = breaker.records(&[10, 11]);
    assert_eq!(refusal, None);
    assert_eq!(records.last().unwrap().values, [2, 0, 2, 1, 1]);

    // Until frame 8 the notices are those of the whole table.
    let (wholes, _) = Breaker::with(&whole).records(&[]);
    assert_eq!(records[..9], wholes[..9]);
    assert_eq!((records[9].notified_bits(), wholes[9].notified_bits()), (0b0010, 0b1010));
}

#[test]
fn each_line_struck() {
    let whole = breaker_table();
    let mut answers = Vec::new();
    for line in 0..whole.len() {
        let mut struck = whole.clone();
        struck.remove(line);
        let (_, refusal) = Breaker::with(&struck).records(&[]);
        answers.push(refusal.map(|answer| (answer.number, answer.first)));
    }
    assert_eq!(answers, [Some((14, 3)), None, None, Some((14, 6)), Some((14, 10))]);
}
