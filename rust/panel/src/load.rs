//! A load: what is asked for, and what is told of it. Words go to standard error, since standard output is the trace's.
use crate::args::{quoted, Given};
use crate::input::name_text;
use crate::out::{Out, Style};
use crate::patience;
use crate::sheet::{pair, Sheet};
use crate::text;
use crate::words;
use damsonyet::{Load, Machine, Refusal};
use std::ffi::OsStr;
use std::io;

/// What a load is asked for.
pub struct Asked {
    pub seed: u32,
    pub threads: usize,
    pub wanted: usize,
}

/// A number in decimal digits, or behind 0x in hexadecimal ones.
fn seed(text: &str) -> Option<u32> {
    match text.strip_prefix("0x").or(text.strip_prefix("0X")) {
        Some(digits) => u32::from_str_radix(digits, 16).ok().filter(|_| !digits.starts_with('+')),
        None => text.parse().ok(),
    }
}

impl Asked {
    /// From the options. How many threads are good the library says.
    pub fn of(given: &Given) -> Result<Asked, String> {
        let value = |name: &str, letter: char| given.value(name).ok_or_else(|| format!("'--{name} {letter}' is missing"));
        let [seed_text, threads, frames] = [value("seed", 'S')?, value("threads", 'N')?, value("frames", 'K')?];
        let wrong = |name: &str, text: &OsStr, what: &str| format!("'--{name} {}': {what}", name_text(text));
        let number = |name: &str, text: &OsStr, what: &str| {
            text.to_str().and_then(|text| text.parse::<usize>().ok()).ok_or_else(|| wrong(name, text, what))
        };
        let seed = seed_text.to_str().and_then(seed);
        Ok(Asked {
            seed: seed.ok_or_else(|| wrong("seed", seed_text, "a number from 0 to 4294967295, or 0x0 to 0xFFFFFFFF"))?,
            threads: number("threads", threads, "how many threads, 1 to 16")?,
            wanted: number("frames", frames, "how many frames")?,
        })
    }

    /// `seed 7, 3 threads`.
    pub fn name(&self) -> String {
        format!("seed {}, {}", self.seed, words::some(self.threads, "thread"))
    }

    pub fn made(&self, file: &[u8]) -> Result<Load, Refusal> {
        let Asked { seed, threads, wanted } = *self;
        patience::meanwhile(&format!("making {}", words::some(wanted, "frame")), || damsonyet::load(file, seed, threads, wanted))
    }
}

/// What was made: how many frames and, where these are fewer than were wanted, where it stands still.
pub fn told(out: &mut Out, file: &[u8], asked: &Asked, load: &Load) -> io::Result<()> {
    let (made, name) = (words::some(load.frames, "frame"), asked.name());
    if load.frames == asked.wanted {
        return out.text(Style::Good, "", "  ", &format!("{made} made ({name})"));
    }
    out.text(Style::Mark, "", "  ", &format!("{made} made of {} wanted ({name}): a standstill", words::grouped(asked.wanted)))?;
    let why = "Nobody can move any more but by a recheck: all wait, and no guard that they wait on holds.";
    out.text(Style::Plain, "  ", "  ", why)?;
    let Ok((outline, _)) = damsonyet::outline(file) else { return Ok(()) };
    let sheet = Sheet::new(file, outline);
    let Ok(end) = damsonyet::run(file, &load.trace, sheet.outline.start, Machine::Plain) else { return Ok(()) };
    let values = text::unbroken(&sheet.state_text(&end.values));
    let waiting = text::waiting(&sheet, &end.places, |g| end.line(&sheet.outline, g));
    let notified: Vec<String> = end.notified.iter().map(|&thread| pair(thread)).collect();
    let notified = if notified.is_empty() { String::new() } else { format!(" | notified by the plain machine: {}", notified.join(" ")) };
    out.text(Style::Plain, "  ", "  ", &format!("At the end {values} | {waiting}{notified}"))
}

/// The command that tells the run of a load in a file, on one line, so that it can be copied.
pub fn how_to_run(out: &mut Out, file: &OsStr, trace: &OsStr) -> io::Result<()> {
    out.line(Style::Plain, &format!("  To see its run: panel run {} {}", quoted(file), quoted(trace)))
}

/// Why there is none: the count of threads, or the file.
pub fn refused(out: &mut Out, name: &str, file: &[u8], asked: &Asked, refusal: &Refusal) -> io::Result<()> {
    if refusal.number != 16 {
        return text::refused_file(out, name, file, refusal);
    }
    let refused = words::threads_refused(asked.threads);
    out.text(Style::Bad, "", "  ", &format!("threads: refused, {}", refused.headline))?;
    text::explained(out, &refused)
}
