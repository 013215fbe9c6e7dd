//! A count of what the cases in a directory hold.

use std::fmt::Write;
use std::fs;
use std::io;
use std::path::Path;

use crate::frames::frames;

/// The counts, as text.
pub fn tally(directory: &Path) -> io::Result<String> {
    let mut tally = Tally::default();
    for entry in fs::read_dir(directory)? {
        let case = entry?.path();
        if case.join("monitor.txt").is_file() {
            let trace = fs::read(case.join("trace.txt"))?;
            let placer = fs::read_to_string(case.join("placer.txt"))?;
            let runner = fs::read_to_string(case.join("runner.txt"))?;
            tally.add(&trace, &placer, &runner);
        }
    }
    Ok(tally.text())
}

#[derive(Default)]
pub struct Tally {
    pub cases: usize,
    /// Cases in which a refusal of this number is printed.
    pub refused: [usize; 16],
    /// Cases that both machines accept.
    pub accepted: usize,
    /// Those of them with at least three frames, and some body that ran.
    pub with_a_run: usize,
    /// Cases that the plain machine alone accepts.
    pub plain_only: usize,
    /// Cases where the machines' lines differ at all.
    pub parted: usize,
    pub empty_tables: usize,
    pub longest_table: usize,
    pub most_frames: usize,
}

impl Tally {
    pub fn add(&mut self, trace: &[u8], placer: &str, runner: &str) {
        self.cases += 1;
        let numbers: Vec<usize> = runner.lines().map(number_of).collect();
        for number in 1..self.refused.len() {
            if numbers.contains(&number) {
                self.refused[number] += 1;
            }
        }
        let [plain, table] = numbers[..] else {
            return; // The file is refused.
        };
        let frames = frames(trace).unwrap_or_default();
        self.most_frames = self.most_frames.max(frames.len());
        self.longest_table = self.longest_table.max(placer.lines().count());
        self.empty_tables += usize::from(placer.is_empty());
        self.parted += usize::from(runner.lines().next() != runner.lines().last());
        self.plain_only += usize::from(plain == 0 && table != 0);
        if plain == 0 && table == 0 {
            self.accepted += 1;
            let ran = frames.len() >= 3 && frames.iter().any(|frame| frame.flag);
            self.with_a_run += usize::from(ran);
        }
    }

    pub fn text(&self) -> String {
        let mut text = format!("cases {}\n", self.cases);
        for (number, count) in self.refused.iter().enumerate().skip(1) {
            if ![10, 11].contains(&number) {
                writeln!(text, "refusal {number}: {count}").unwrap();
            }
        }
        writeln!(text, "accepted by both machines: {}", self.accepted).unwrap();
        writeln!(text, "  with three frames or more and a body run: {}", self.with_a_run).unwrap();
        writeln!(text, "accepted by the plain machine alone: {}", self.plain_only).unwrap();
        writeln!(text, "machines' lines differ: {}", self.parted).unwrap();
        writeln!(text, "empty tables: {}", self.empty_tables).unwrap();
        writeln!(text, "longest table, lines: {}", self.longest_table).unwrap();
        writeln!(text, "longest trace of frames only: {}", self.most_frames).unwrap();
        text
    }
}

/// The number of a line of `runner`: its first two digits.
fn number_of(line: &str) -> usize {
    usize::from_str_radix(&line[..2], 16).expect("two digits")
}
