//! Loads of hostile files, beside this program's: the call is made by a program that goes between.
//!
//! That program reads asks from its standard input until it ends, each as the file's length and the
//! seed, four bytes each, the count of threads and the wanted count, eight each, the buffer's length,
//! four, and then the file. For each it writes the number of the answer, one byte, its places and the
//! count of frames, eight each, and every byte of the buffer afterwards, which held A5 before. The
//! lowest byte of a number comes first.

use std::fs;
use std::io::{self, BufReader, BufWriter, Read, Write};
use std::path::Path;
use std::process::{Child, ChildStdin, ChildStdout, Command, Stdio};

use super::Bases;
use crate::cases::asks::Ask;
use crate::cases::draws::Draws;
use crate::load::load;

/// What is in the buffer before.
const BEFORE: u8 = 0xA5;

/// So many differing inputs are kept and shown.
const MOST_KEPT: usize = 20;

/// What a call gives: the answer's number and places, the count, and the buffer afterwards.
#[derive(Clone, Debug, PartialEq, Eq)]
pub struct Given {
    pub answer: (u8, u64, u64),
    pub count: u64,
    pub buffer: Vec<u8>,
}

/// What this program gives.
pub fn given(file: &[u8], ask: Ask) -> Given {
    let mut buffer = vec![BEFORE; ask.room];
    let made = load(file, ask.seed, ask.threads, ask.wanted, &mut buffer);
    let answer = made
        .answer
        .err()
        .map_or((0, 0, 0), |answer| (answer.number, answer.first as u64, answer.second as u64));
    Given { answer, count: made.count as u64, buffer }
}

/// What came of it.
#[derive(Default)]
pub struct Outcome {
    pub loads: usize,
    /// How often each number 0 to 16 was answered.
    pub answers: [usize; 17],
    /// Frames that were made, and loads that ended before the wanted count.
    pub frames: u64,
    pub short: usize,
    pub differences: usize,
}

impl Outcome {
    pub fn text(&self) -> String {
        let mut text = String::new();
        for (number, count) in self.answers.iter().enumerate() {
            if !(11..=14).contains(&number) {
                text += &format!("answer {number:>2}: {count}\n");
            }
        }
        let Outcome { loads, frames, short, differences, .. } = self;
        text + &format!(
            "{loads} loads, {differences} differences; {frames} frames, {short} ended short\n"
        )
    }
}

/// Two asks beside each of the first hostile files of a seed, to a call that may fail. Asks on which
/// it gives something else are kept in a directory.
pub fn compare(
    seed: u64,
    count: usize,
    kept: &Path,
    mut call: impl FnMut(&[u8], Ask) -> io::Result<Given>,
) -> io::Result<Outcome> {
    let mut bases = Bases::of(seed);
    let mut outcome = Outcome::default();
    for number in 0..count {
        let input = bases.input(number);
        // The draws of the input are others.
        let drawn = Ask::any(&mut Draws::of(seed.wrapping_add(1), number));
        for (which, ask) in [Ask::beside(&input), drawn].into_iter().enumerate() {
            let expected = given(&input.monitor, ask);
            outcome.loads += 1;
            outcome.answers[usize::from(expected.answer.0)] += 1;
            outcome.frames += expected.count;
            let is_short = expected.answer.0 == 0 && expected.count < ask.wanted as u64;
            outcome.short += usize::from(is_short);
            let got = call(&input.monitor, ask);
            if !got.as_ref().is_ok_and(|got| *got == expected) {
                outcome.differences += 1;
                if outcome.differences <= MOST_KEPT {
                    let at = kept.join(format!("{seed}-{number}-load-{which}"));
                    keep(&at, &input.monitor, ask, &expected, &got)?;
                }
            }
            // A program that has ended answers no more.
            got?;
        }
        if (number + 1) % 10_000 == 0 {
            eprintln!("hostile: {} of {count} files", number + 1);
        }
    }
    Ok(outcome)
}

fn keep(
    at: &Path,
    file: &[u8],
    ask: Ask,
    expected: &Given,
    got: &io::Result<Given>,
) -> io::Result<()> {
    fs::create_dir_all(at)?;
    fs::write(at.join("monitor.txt"), file)?;
    fs::write(at.join("load.txt"), ask.text())?;
    fs::write(at.join("expected"), format!("{expected:?}\n"))?;
    fs::write(at.join("given"), format!("{got:?}\n"))?;
    println!("{}: the load differs", at.display());
    Ok(())
}

/// The program that goes between.
pub struct Program {
    child: Child,
    to: BufWriter<ChildStdin>,
    from: BufReader<ChildStdout>,
}

impl Program {
    /// Starts it: a command and its arguments.
    pub fn started(command: &[&str]) -> io::Result<Program> {
        let [program, arguments @ ..] = command else {
            return Err(io::Error::other("no program"));
        };
        let mut command = Command::new(program);
        command.args(arguments).stdin(Stdio::piped()).stdout(Stdio::piped());
        let mut child = command.spawn()?;
        let to = BufWriter::new(child.stdin.take().expect("a pipe"));
        let from = BufReader::new(child.stdout.take().expect("a pipe"));
        Ok(Program { child, to, from })
    }

    pub fn ask(&mut self, file: &[u8], ask: Ask) -> io::Result<Given> {
        self.to.write_all(&(file.len() as u32).to_le_bytes())?;
        self.to.write_all(&ask.seed.to_le_bytes())?;
        self.to.write_all(&(ask.threads as u64).to_le_bytes())?;
        self.to.write_all(&(ask.wanted as u64).to_le_bytes())?;
        self.to.write_all(&(ask.room as u32).to_le_bytes())?;
        self.to.write_all(file)?;
        self.to.flush()?;
        let mut number = [0];
        self.from.read_exact(&mut number)?;
        let answer = (number[0], self.wide()?, self.wide()?);
        let count = self.wide()?;
        let mut buffer = vec![0; ask.room];
        self.from.read_exact(&mut buffer)?;
        Ok(Given { answer, count, buffer })
    }

    fn wide(&mut self) -> io::Result<u64> {
        let mut bytes = [0; 8];
        self.from.read_exact(&mut bytes)?;
        Ok(u64::from_le_bytes(bytes))
    }

    /// It ends by itself when it is asked no more, with status 0 and nothing more to say.
    pub fn end(self) -> io::Result<bool> {
        let Program { mut child, to, mut from } = self;
        drop(to);
        let mut rest = Vec::new();
        from.read_to_end(&mut rest)?;
        Ok(child.wait()?.success() && rest.is_empty())
    }
}
