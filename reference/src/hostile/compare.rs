//! The programs `placer` and `runner`, run on hostile input beside this program.

use std::fs::{self, File};
use std::io::{self, Read, Write};
use std::panic::catch_unwind;
use std::path::{Path, PathBuf};
use std::process::{Child, Command, ExitStatus, Stdio};
use std::sync::atomic::{AtomicUsize, Ordering};
use std::sync::mpsc::{channel, RecvTimeoutError};
use std::sync::Mutex;
use std::thread;
use std::time::{Duration, Instant};

use super::answers::Answers;
use super::Bases;
use crate::cases::Case;
use crate::lines::{placer, runner};

/// What is to be compared.
pub struct Plan {
    pub seed: u64,
    pub count: usize,
    pub workers: usize,
    /// The directory with the programs.
    pub programs: PathBuf,
    /// Where inputs are kept on which the programs differ.
    pub kept: PathBuf,
    /// A command under which the programs are run, as a memory checker; mostly none.
    pub under: Vec<String>,
}

/// What came of it.
#[derive(Default)]
pub struct Outcome {
    /// Inputs on which both programs were run.
    pub inputs: usize,
    pub answers: Answers,
    /// Inputs for which something else was printed.
    pub differences: usize,
    /// Inputs for which a program did not end with status 0, or had a word to say on
    /// standard error.
    pub crashes: usize,
    /// The longest that a program ran.
    pub slowest: Duration,
}

impl Outcome {
    pub fn text(&self) -> String {
        let Outcome { inputs, answers, differences, crashes, slowest } = self;
        let answers = answers.text();
        let slowest = slowest.as_millis();
        format!(
            "{answers}{inputs} inputs, {differences} differences, {crashes} crashes; \
             the slowest run took {slowest} ms\n"
        )
    }

    /// Whether all inputs were run, and the programs equal on them.
    pub fn is_good(&self, plan: &Plan) -> bool {
        self.inputs == plan.count && self.differences == 0 && self.crashes == 0
    }
}

/// A program that runs longer is ended, and counts as a crash.
const LONGEST_RUN: Duration = Duration::from_secs(60);

/// So many differing inputs are kept and shown.
const MOST_KEPT: usize = 20;

/// The recursion of this program takes more stack than the programs may have.
const OWN_STACK: usize = 64 << 20;

pub fn compare(plan: &Plan) -> io::Result<Outcome> {
    let done = AtomicUsize::new(0);
    let kept = AtomicUsize::new(0);
    let mut outcome = Outcome::default();
    thread::scope(|scope| {
        let mut workers = Vec::new();
        for number in 0..plan.workers {
            let (done, kept) = (&done, &kept);
            let worker = thread::Builder::new().stack_size(OWN_STACK);
            workers.push(worker.spawn_scoped(scope, move || work(plan, number, done, kept))?);
        }
        for worker in workers {
            let part = worker.join().expect("a worker ends")?;
            outcome.inputs += part.inputs;
            outcome.answers.join(&part.answers);
            outcome.differences += part.differences;
            outcome.crashes += part.crashes;
            outcome.slowest = outcome.slowest.max(part.slowest);
        }
        Ok(outcome)
    })
}

/// Every input whose number is the worker's, counted by the number of workers.
fn work(plan: &Plan, worker: usize, done: &AtomicUsize, kept: &AtomicUsize) -> io::Result<Outcome> {
    let room = Room::new(worker)?;
    let mut bases = Bases::of(plan.seed);
    let mut outcome = Outcome::default();
    for number in (worker..plan.count).step_by(plan.workers) {
        let input = bases.input(number);
        room.put(&input, number)?;
        let placed = room.run(plan, "placer", &input.monitor, number)?;
        let ran = room.run(plan, "runner", &[], number)?;
        outcome.inputs += 1;
        outcome.slowest = outcome.slowest.max(placed.took).max(ran.took);
        match catch_unwind(|| [placer(&input.monitor), runner(&input.monitor, &input.trace)]) {
            Ok(expected) => {
                outcome.answers.add(&expected[0], &expected[1]);
                let crashed = !placed.ended_well || !ran.ended_well;
                let differs = placed.printed != expected[0] || ran.printed != expected[1];
                outcome.crashes += usize::from(crashed);
                outcome.differences += usize::from(differs);
                if (crashed || differs) && kept.fetch_add(1, Ordering::Relaxed) < MOST_KEPT {
                    keep(plan, number, &input, &expected, &[placed, ran])?;
                }
            }
            Err(_) => {
                outcome.differences += 1;
                keep(plan, number, &input, &[Vec::new(), Vec::new()], &[placed, ran])?;
            }
        }
        let done = done.fetch_add(1, Ordering::Relaxed) + 1;
        if done % 10_000 == 0 {
            eprintln!("hostile: {done} of {} inputs", plan.count);
        }
    }
    Ok(outcome)
}

/// A worker's directory, in memory where the system has that.
struct Room {
    at: PathBuf,
}

/// What a program printed and how it ended.
struct Run {
    printed: Vec<u8>,
    said: Vec<u8>,
    status: String,
    ended_well: bool,
    took: Duration,
}

impl Room {
    fn new(worker: usize) -> io::Result<Room> {
        let memory = Path::new("/dev/shm");
        let parent = if memory.is_dir() { memory.into() } else { std::env::temp_dir() };
        let at = parent.join(format!("hostile-{}-{worker}", std::process::id()));
        fs::create_dir_all(&at)?;
        Ok(Room { at })
    }

    /// Writes the two files. An empty one is now and then a missing one.
    fn put(&self, input: &Case, number: usize) -> io::Result<()> {
        for (name, bytes) in [("monitor.txt", &input.monitor), ("trace.txt", &input.trace)] {
            let path = self.at.join(name);
            if bytes.is_empty() && number % 2 == 0 {
                let _ = fs::remove_file(path);
            } else {
                fs::write(path, bytes)?;
            }
        }
        Ok(())
    }

    /// Runs a program in this directory with these bytes as its standard input.
    fn run(&self, plan: &Plan, name: &str, input: &[u8], number: usize) -> io::Result<Run> {
        let program = plan.programs.join(name);
        let mut command = match plan.under.split_first() {
            Some((first, rest)) => {
                let mut command = Command::new(first);
                command.args(rest).arg(program);
                command
            }
            None => Command::new(program),
        };
        // Now and then a pipe that hands the file over in two parts.
        let in_parts = number % 8 == 1 && !input.is_empty();
        let stdin = match File::open(self.at.join("monitor.txt")) {
            _ if in_parts => Stdio::piped(),
            Ok(file) if !input.is_empty() => file.into(),
            _ => Stdio::null(),
        };
        let said = File::create(self.at.join("said"))?;
        command.current_dir(&self.at).stdin(stdin).stdout(Stdio::piped()).stderr(said);
        let began = Instant::now();
        let mut child = command.spawn()?;
        if let Some(mut pipe) = child.stdin.take() {
            let (head, tail) = input.split_at(number % input.len());
            // A program that does not read all is free to.
            let _ = pipe.write_all(head);
            thread::sleep(Duration::from_millis(1));
            let _ = pipe.write_all(tail);
        }
        let (printed, status) = ended(child)?;
        let took = began.elapsed();
        let said = fs::read(self.at.join("said"))?;
        let ended_well = status.success() && said.is_empty();
        Ok(Run { printed, said, status: status.to_string(), ended_well, took })
    }
}

impl Drop for Room {
    fn drop(&mut self) {
        let _ = fs::remove_dir_all(&self.at);
    }
}

/// What a program prints until it ends, or is ended because it ran too long.
fn ended(mut child: Child) -> io::Result<(Vec<u8>, ExitStatus)> {
    let mut printed = Vec::new();
    let mut stdout = child.stdout.take().expect("a pipe");
    let child = &Mutex::new(child);
    let (end, waited) = channel::<()>();
    let read = thread::scope(|scope| {
        scope.spawn(move || {
            if waited.recv_timeout(LONGEST_RUN) == Err(RecvTimeoutError::Timeout) {
                let _ = child.lock().expect("no other holds it").kill();
            }
        });
        let read = stdout.read_to_end(&mut printed);
        drop(end);
        read
    });
    read?;
    let status = child.lock().expect("no other holds it").wait()?;
    Ok((printed, status))
}

/// Keeps an input, what was expected for it and what was printed, and says so.
fn keep(
    plan: &Plan,
    number: usize,
    input: &Case,
    expected: &[Vec<u8>],
    runs: &[Run],
) -> io::Result<()> {
    let at = plan.kept.join(format!("{}-{number}", plan.seed));
    fs::create_dir_all(&at)?;
    fs::write(at.join("monitor.txt"), &input.monitor)?;
    fs::write(at.join("trace.txt"), &input.trace)?;
    for ((name, expected), run) in ["placer", "runner"].iter().zip(expected).zip(runs) {
        fs::write(at.join(format!("{name}.txt")), expected)?;
        fs::write(at.join(format!("{name}.printed")), &run.printed)?;
        fs::write(at.join(format!("{name}.said")), &run.said)?;
        if !run.ended_well || run.printed != *expected {
            println!("{}: {name} differs ({})", at.display(), run.status);
        }
    }
    Ok(())
}
