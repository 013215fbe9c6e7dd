//! The program `panel`: see `panel --help`.
use std::process::ExitCode;

fn main() -> ExitCode {
    let arguments: Vec<_> = std::env::args_os().skip(1).collect();
    // A call of the library may need much of a stack; the first thread's may have been made small.
    let worker = std::thread::Builder::new().stack_size(panel::STACK).spawn(move || panel::cli::main(&arguments));
    match worker.map(|worker| worker.join()) {
        Ok(Ok(status)) => ExitCode::from(status),
        _ => ExitCode::from(2),
    }
}
