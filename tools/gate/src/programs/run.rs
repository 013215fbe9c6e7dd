//! A run: what a program is given, and what it must print and say.

use super::inputs::Parts;
use crate::system::words;

#[derive(Clone, Copy, PartialEq, Eq, Hash)]
pub enum Program {
    Placer,
    Runner,
}

impl Program {
    pub fn name(self) -> &'static str {
        match self {
            Program::Placer => "placer",
            Program::Runner => "runner",
        }
    }
}

/// What a program finds as its standard input or as a file.
#[derive(Clone)]
pub enum Given {
    File(Vec<u8>),
    Pipe(Parts),
    /// A named pipe.
    Fifo(Parts),
    Socket(Parts),
    Missing,
    Directory,
    /// A link to itself.
    Loop,
    /// A file that may not be read.
    Locked,
    /// A pipe with these bytes that does not wait and does not end.
    Stuck(Vec<u8>),
    /// A connection that breaks off behind these bytes.
    Reset(Vec<u8>),
}

impl Given {
    /// All bytes of it.
    pub fn bytes(&self) -> Vec<u8> {
        match self {
            Given::File(bytes) | Given::Stuck(bytes) | Given::Reset(bytes) => bytes.clone(),
            Given::Pipe(parts) | Given::Fifo(parts) | Given::Socket(parts) => parts.concat(),
            Given::Missing | Given::Directory | Given::Loop | Given::Locked => Vec::new(),
        }
    }
}

/// The name under which placer's standard input is kept.
pub const INPUT: &str = "input";

pub struct Run {
    pub name: String,
    pub program: Program,
    /// What it is given, each by its name.
    pub given: Vec<(&'static str, Given)>,
    pub printed: Vec<u8>,
    pub said: String,
    /// The shell line that starts it, if it is not started plainly.
    pub shell: Option<&'static str>,
}

/// A run of placer.
pub fn placer(name: &str, input: Given, printed: &[u8]) -> Run {
    Run::plain(Program::Placer, name, vec![(INPUT, input)], printed)
}

/// A run of runner.
pub fn runner(name: &str, monitor: Given, trace: Given, printed: &[u8]) -> Run {
    let given = vec![("monitor.txt", monitor), ("trace.txt", trace)];
    Run::plain(Program::Runner, name, given, printed)
}

impl Run {
    /// The run of a program that says nothing and is started plainly.
    fn plain(
        program: Program,
        name: &str,
        given: Vec<(&'static str, Given)>,
        printed: &[u8],
    ) -> Run {
        let name = format!("{}/{name}", program.name());
        Run { name, program, given, printed: printed.to_vec(), said: String::new(), shell: None }
    }

    /// The run in which the program must say that something failed, with an error's number.
    pub fn saying(mut self, what: &str, number: i32) -> Run {
        self.said = format!("{}: {what}: {}\n", self.program.name(), words(number));
        self
    }

    /// The run started by a shell line, in which "$@" is the program's command.
    pub fn by(mut self, shell: &'static str) -> Run {
        self.shell = Some(shell);
        self
    }
}
