//! The second program, as it is called.

use std::fs::File;
use std::io;
use std::path::{Path, PathBuf};
use std::process::{Command, Stdio};

use crate::system::unless_interrupted;

pub struct Second {
    pub program: PathBuf,
}

impl Second {
    /// Builds it.
    pub fn built(root: &Path) -> io::Result<Second> {
        let mut cargo = Command::new("cargo");
        cargo.args(["build", "--release", "--offline", "--quiet"]);
        printed(cargo.current_dir(root.join("reference")))?;
        Ok(Second { program: root.join("reference/target/release/reference") })
    }

    /// What it prints as placer for a file.
    pub fn placer(&self, file: &Path) -> io::Result<Vec<u8>> {
        printed(Command::new(&self.program).arg("placer").stdin(File::open(file)?))
    }

    /// What it prints as runner for the files of a directory.
    pub fn runner(&self, directory: &Path) -> io::Result<Vec<u8>> {
        printed(Command::new(&self.program).arg("runner").arg(directory))
    }

    /// The five lines that replay prints about `points` for the files of a directory.
    pub fn replay_points(&self, directory: &Path) -> io::Result<Vec<u8>> {
        printed(Command::new(&self.program).arg("replay-points").arg(directory))
    }

    /// Writes cases, or hostile inputs, into a directory.
    pub fn write(&self, what: &str, seed: &str, count: &str, to: &Path) -> io::Result<()> {
        printed(Command::new(&self.program).args([what, seed, count]).arg(to)).map(drop)
    }
}

/// What a command prints; it must end with status 0, and may say what it likes.
fn printed(command: &mut Command) -> io::Result<Vec<u8>> {
    let output = command.stderr(Stdio::inherit()).output()?;
    unless_interrupted()?;
    match output.status.success() {
        true => Ok(output.stdout),
        false => Err(io::Error::other(format!("{command:?}: {}", output.status))),
    }
}
