//! Stands in for placer or runner, rightly but for one slip in reading or writing, which
//! `programs --selftest` must find out.
//!
//! The answer itself is the second program's, on what was read.

use std::fs::{self, File, OpenOptions};
use std::io::{self, Read, Write};
use std::mem::{forget, ManuallyDrop};
use std::os::fd::{AsRawFd, FromRawFd, RawFd};
use std::process::{Command, Stdio};

use crate::system::words;

/// Ends well whatever could not be read or written, as the programs do.
pub fn stand_in(reference: &str, program: &str, slip: &str) -> io::Result<bool> {
    let it = StandIn { reference, is_placer: program == "placer", program, slip };
    let Some((file, trace)) = it.input() else { return Ok(true) };
    let out = descriptor(1).try_clone();
    fill_standard_descriptors()?;
    let lines = it.lines(&file, &trace)?;
    if let Err(error) = out.and_then(|out| it.write(out, &lines)) {
        if !it.slips("write-unsaid") {
            it.say("standard output", &error);
        }
    }
    Ok(true)
}

struct StandIn<'a> {
    reference: &'a str,
    is_placer: bool,
    program: &'a str,
    slip: &'a str,
}

impl StandIn<'_> {
    fn slips(&self, slip: &str) -> bool {
        self.slip == slip
    }

    /// The monitor file and the trace; none where a failure has been said.
    fn input(&self) -> Option<(Vec<u8>, Vec<u8>)> {
        let most = match self.slip {
            "buffer-8191" => 8191,
            "buffer-8192" => 8192,
            _ => 8193,
        };
        if self.is_placer {
            let file = self.given("standard input", most, self.slips("one-read-input"))?;
            return Some((file, Vec::new()));
        }
        let file = self.given("monitor.txt", most, self.slips("one-read-file"))?;
        Some((file, self.trace()?))
    }

    fn trace(&self) -> Option<Vec<u8>> {
        let most = match self.slip {
            "trace-65534" => 65534,
            "short-4096" => 4096,
            _ => 65536,
        };
        let mut trace = self.given("trace.txt", most, self.slips("one-read-trace"))?;
        if self.slips("short-dropped") && trace.len() > 4096 {
            trace.drain(..4096);
        }
        if self.slips("opened-again") && trace.len() >= 4096 {
            trace = self.given("trace.txt", most, false)?;
        }
        Some(trace)
    }

    /// What is read of standard input or of a file, so many bytes at most; a failure is said.
    fn given(&self, what: &str, most: usize, once: bool) -> Option<Vec<u8>> {
        let taken = match self.is_placer {
            true => self.take(&descriptor(0), most, once),
            false => self.take_named(what, most, once),
        };
        match taken {
            Ok(bytes) => Some(bytes),
            Err(error) => {
                self.say(what, &error);
                self.slips("verdict-too").then(Vec::new)
            }
        }
    }

    fn take_named(&self, name: &str, most: usize, once: bool) -> io::Result<Vec<u8>> {
        let file = match File::open(name) {
            Ok(file) => file,
            Err(error) => {
                let is_missing = error.kind() == io::ErrorKind::NotFound;
                let counts = is_missing && !self.slips("missing-fails");
                return if counts || self.slips("any-missing") {
                    Ok(Vec::new())
                } else {
                    Err(error)
                };
            }
        };
        if file.as_raw_fd() == 0 && self.slips("descriptor-0") {
            forget(file);
            return Ok(Vec::new());
        }
        self.take(&file, most, once)
    }

    fn take(&self, mut from: &File, most: usize, once: bool) -> io::Result<Vec<u8>> {
        let mut bytes = Vec::new();
        while bytes.len() < most {
            let mut part = vec![0; most - bytes.len()];
            match from.read(&mut part) {
                Ok(count) => part.truncate(count),
                Err(_) if self.slips("failure-ends") => break,
                Err(_) if self.slips("failure-first") && !bytes.is_empty() => break,
                Err(error) => return Err(error),
            }
            let is_end = part.is_empty() || self.slips("part-ends") && part.len() < 4096;
            self.put(&mut bytes, &part);
            if is_end || once {
                break;
            }
        }
        Ok(bytes)
    }

    /// Puts a part behind what was read before.
    fn put(&self, bytes: &mut Vec<u8>, part: &[u8]) {
        if self.slips("parts-at-start") && bytes.len() >= 4096 {
            bytes.resize(bytes.len() + part.len(), b' ');
            bytes[..part.len()].copy_from_slice(part);
        } else {
            bytes.extend(part);
        }
    }

    fn lines(&self, file: &[u8], trace: &[u8]) -> io::Result<Vec<u8>> {
        if self.slips("long-unprinted") && file.len() == 8193 {
            return Ok(Vec::new());
        }
        let lines = self.answer(file, trace)?;
        let each: Vec<&[u8]> = lines.split_inclusive(|&byte| byte == b'\n').collect();
        Ok(match each[..] {
            [plain, _] if self.slips("plain-twice") => plain.repeat(2),
            _ => lines,
        })
    }

    /// What the second program prints for what was read.
    fn answer(&self, file: &[u8], trace: &[u8]) -> io::Result<Vec<u8>> {
        let mut command = Command::new(self.reference);
        if !self.is_placer {
            fs::create_dir("seen")?;
            fs::write("seen/monitor.txt", file)?;
            fs::write("seen/trace.txt", trace)?;
            return Ok(command.args(["runner", "seen"]).output()?.stdout);
        }
        let mut child =
            command.arg("placer").stdin(Stdio::piped()).stdout(Stdio::piped()).spawn()?;
        child.stdin.take().expect("a pipe").write_all(file)?;
        Ok(child.wait_with_output()?.stdout)
    }

    fn write(&self, mut out: File, lines: &[u8]) -> io::Result<()> {
        let mut rest = lines;
        while !rest.is_empty() {
            rest = &rest[out.write(rest)?..];
            if self.slips("write-once") {
                break;
            }
        }
        Ok(())
    }

    fn say(&self, what: &str, error: &io::Error) {
        let reason = words(error.raw_os_error().unwrap_or(0));
        let line = format!("{}: {what}: {reason}\n", self.program);
        let _ = descriptor(2).write(line.as_bytes());
    }
}

/// An open descriptor, or a closed one, of which every use fails.
fn descriptor(number: RawFd) -> ManuallyDrop<File> {
    ManuallyDrop::new(unsafe { File::from_raw_fd(number) })
}

/// What is opened from here on gets no number below 3.
fn fill_standard_descriptors() -> io::Result<()> {
    loop {
        let file = OpenOptions::new().read(true).write(true).open("/dev/null")?;
        let number = file.as_raw_fd();
        forget(file);
        if number >= 3 {
            return Ok(());
        }
    }
}
