//! Stand-ins that read or write wrongly must each be found out.

use std::ffi::OsString;
use std::path::Path;
use std::{env, io};

use super::compare::{compare, Commands};
use super::named;
use super::runs::runs;
use crate::second::Second;

/// The slips of stand-ins, what each is, and how the names of the runs begin that are to show it.
#[rustfmt::skip]
const SLIPS: [(&str, &str, &str); 22] = [
    ("none", "no slip", ""),
    ("buffer-8191", "a file's buffer holds 8,191 bytes", "placer/front-8192"),
    ("buffer-8192", "a file's buffer holds 8,192 bytes", "runner/monitor/behind-8193"),
    ("long-unprinted", "nothing is printed where 8,193 bytes were read", "placer/behind-8193"),
    ("one-read-input", "placer reads once", "placer/spread-8192/pipe"),
    ("one-read-file", "runner reads monitor.txt once", "runner/monitor/spread-8192/fifo"),
    ("one-read-trace", "runner reads trace.txt once", "runner/trace/good-4102/fifo"),
    ("part-ends", "a part of less than 4,096 bytes ends the input", "placer/spread-8192/socket"),
    ("parts-at-start", "a part behind the first 4,096 bytes is put at the buffer's start", "placer/spread-8192/fifo"),
    ("short-4096", "a trace that fills a short buffer of 4,096 bytes is judged by it", "runner/trace/good-4102/file"),
    ("short-dropped", "what the short buffer holds is dropped where more follows", "runner/trace/good-4102/file"),
    ("opened-again", "a trace that fills the short buffer is opened and read again", "runner/trace/good-4102/fifo"),
    ("trace-65534", "the trace's buffer holds 65,534 bytes", "runner/trace/good-65541"),
    ("descriptor-0", "descriptor 0 counts as a failed open", "runner/monitor/text/file-input-closed"),
    ("missing-fails", "a missing file is a failure", "runner/missing"),
    ("any-missing", "a file that cannot be opened counts as missing", "runner/trace-loop"),
    ("failure-ends", "a failed read ends the input", "placer/input"),
    ("failure-first", "only the first read is asked whether it failed", "placer/input-reset"),
    ("verdict-too", "a failure is said, and a line printed all the same", "runner/monitor-directory"),
    ("write-unsaid", "a failed write is not said", "runner/output-full"),
    ("write-once", "what one write leaves is not written", "placer/output-half"),
    ("plain-twice", "the plain machine's line is printed twice", "runner/trace/parting-4102"),
];

/// Whether the stand-in without a slip is as it should be in every run, and each other differs in
/// the runs that are to show it.
pub fn selftest(root: &Path) -> io::Result<bool> {
    let second = Second::built(root)?;
    let all = runs();
    let mut missed = 0;
    for (slip, what, shown_by) in SLIPS {
        let chosen = named(&all, shown_by);
        let wrong = compare(&chosen, &stand_ins(&second, slip)?)?;
        let is_told = wrong.is_empty() == (slip == "none");
        missed += usize::from(!is_told);
        let mark = if is_told { "" } else { "NOT TOLD: " };
        let (differ, of) = (wrong.len(), chosen.len());
        println!("{mark}{what}: {differ} of {of} runs {shown_by} differ");
        for (run, found) in wrong.iter().filter(|_| !is_told) {
            println!("  {}: {found}", run.name);
        }
    }
    println!("programs: {} stand-ins told rightly, {missed} not", SLIPS.len() - missed);
    Ok(missed == 0)
}

/// The commands of both stand-ins with a slip.
fn stand_ins(second: &Second, slip: &str) -> io::Result<Commands> {
    let this = env::current_exe()?;
    let command = |program: &str| -> Vec<OsString> {
        vec![
            this.clone().into(),
            "slip".into(),
            second.program.clone().into(),
            program.into(),
            slip.into(),
        ]
    };
    Ok(Commands { placer: command("placer"), runner: command("runner") })
}
