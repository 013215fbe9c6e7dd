//! Holds docs/BELIEVE.md to the tree.
//!
//! Each row of its first table names a file that must be believed and its lines, imports and blank
//! lines left out. The files must be there, the lines and the total right, and every file of words
//! among them.

use std::io;
use std::ops::Range;
use std::path::{Path, PathBuf};

use crate::files::{children, read_text, write};

/// The crates of words, and what in their specs/ is none.
const WORDS: [&str; 4] = ["syntax", "machine", "meaning", "demands"];
const NO_WORDS: [&str; 6] =
    ["Lib.antt", "Decide.antt", "Decide", "Held.antt", "Held", "Widths.antt"];

pub fn believe(root: &Path, arguments: &[&str]) -> io::Result<bool> {
    let page = root.join("docs/BELIEVE.md");
    let found = examine(root, &read_text(&page)?)?;
    if arguments.contains(&"--write") {
        write(&page, found.mended.as_bytes())?;
        return Ok(true);
    }
    for line in &found.bad {
        println!("{line}");
    }
    if found.bad.is_empty() {
        println!("{} files, {} lines to believe", found.files, found.lines);
    }
    Ok(found.bad.is_empty())
}

/// What the page says and should say.
struct Found {
    files: usize,
    lines: usize,
    /// What is wrong, a line each.
    bad: Vec<String>,
    /// The page with the right numbers.
    mended: String,
}

fn examine(root: &Path, text: &str) -> io::Result<Found> {
    let rows: Vec<Row> = text.lines().filter_map(row).collect();
    let mut found = Found { files: rows.len(), lines: 0, bad: Vec::new(), mended: text.into() };
    for row in &rows {
        found.compare(root, row)?;
    }
    for name in words(root)? {
        if !rows.iter().any(|row| row.name == name) {
            found.bad.push(format!("{name}: words that the page does not list"));
        }
    }
    found.compare_total();
    Ok(found)
}

impl Found {
    fn compare(&mut self, root: &Path, row: &Row) -> io::Result<()> {
        let Row { name, lines } = row;
        let path = root.join(name);
        if !path.exists() {
            self.bad.push(format!("{name}: no such file"));
            return Ok(());
        }
        let count = lines_to_believe(&read_text(&path)?);
        self.lines += count;
        if number(lines) != Some(count) {
            self.bad.push(format!("{name}: {count} lines, the page says {lines}"));
            let (old, new) = (row.text(), format!("| `{name}` | {count} |"));
            self.mended = self.mended.replace(&old, &new);
        }
        Ok(())
    }

    fn compare_total(&mut self) {
        let said = totals(&self.mended);
        let first = said.first().map(|at| &self.mended[at.clone()]);
        if first.and_then(number) == Some(self.lines) {
            return;
        }
        let first = first.unwrap_or("nothing");
        self.bad.push(format!("{} lines in all, the page says {first}", self.lines));
        for at in said.into_iter().rev() {
            self.mended.replace_range(at, &grouped(self.lines));
        }
    }
}

/// A row of the table: a file, and its lines as they are written there.
#[derive(Debug, PartialEq)]
pub struct Row<'a> {
    pub name: &'a str,
    pub lines: &'a str,
}

impl Row<'_> {
    fn text(&self) -> String {
        format!("| `{}` | {} |", self.name, self.lines)
    }
}

/// The row that a line of the page is, as in "| `crates/NAME/FILE` | 29 | .."; else none.
pub fn row(line: &str) -> Option<Row<'_>> {
    let (name, rest) = line.strip_prefix("| `")?.split_once("` | ")?;
    let (lines, _) = rest.split_once(" |")?;
    let is_file = name.starts_with("crates/") && !name.contains(char::is_whitespace);
    let is_number = !lines.is_empty() && lines.bytes().all(is_digit_or_comma);
    (is_file && is_number).then_some(Row { name, lines })
}

fn is_digit_or_comma(byte: u8) -> bool {
    byte.is_ascii_digit() || byte == b','
}

/// Where the page says how many lines there are in all: the numbers in "**1,545 lines** in all".
pub fn totals(text: &str) -> Vec<Range<usize>> {
    let mut found = Vec::new();
    for (end, _) in text.match_indices(" lines** in all") {
        let digits = text[..end].bytes().rev().take_while(|&byte| is_digit_or_comma(byte)).count();
        let start = end - digits;
        if digits > 0 && text[..start].ends_with("**") {
            found.push(start..end);
        }
    }
    found
}

/// The number that digits with or without commas are.
fn number(digits: &str) -> Option<usize> {
    digits.replace(',', "").parse().ok()
}

/// A number with commas between thousands.
pub fn grouped(number: usize) -> String {
    match number {
        0..=999 => number.to_string(),
        _ => format!("{},{:03}", grouped(number / 1000), number % 1000),
    }
}

/// How many lines of a file are neither blank nor imports.
pub fn lines_to_believe(text: &str) -> usize {
    text.lines().filter(|line| !line.trim().is_empty() && !line.starts_with("use ")).count()
}

/// The names of all files of words.
fn words(root: &Path) -> io::Result<Vec<String>> {
    let mut names = Vec::new();
    for crate_name in WORDS {
        for path in children(&root.join("crates").join(crate_name).join("specs"))? {
            let is_words =
                path.file_name().is_some_and(|name| NO_WORDS.iter().all(|no| name != *no));
            for file in if is_words { files_below(path)? } else { Vec::new() } {
                names.push(file.strip_prefix(root).unwrap_or(&file).display().to_string());
            }
        }
    }
    Ok(names)
}

/// The path, or all files below it if it is a directory, that are named *.antt.
fn files_below(path: PathBuf) -> io::Result<Vec<PathBuf>> {
    if !path.is_dir() {
        let is_antt = path.extension().is_some_and(|end| end == "antt");
        return Ok(if is_antt { vec![path] } else { Vec::new() });
    }
    let mut files = Vec::new();
    for child in children(&path)? {
        files.extend(files_below(child)?);
    }
    Ok(files)
}
