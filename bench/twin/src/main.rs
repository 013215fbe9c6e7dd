//! twin placer < FILE    what `placer` prints
//! twin runner DIR       what `runner` prints in DIR

use std::process::ExitCode;

use twin::lines;

fn main() -> ExitCode {
    twin::command::main(lines::placer, lines::runner)
}
