//! best N INPUT DIR COMMAND [-- COMMAND ..]    runs each command in DIR with INPUT as its
//! standard input, one after the other and so N rounds, and prints the shortest wall
//! time of each in microseconds, the start of the process included. Rounds end early
//! after ten seconds, but not before the third.

use std::fs::File;
use std::io;
use std::process::{Command, Stdio};
use std::time::{Duration, Instant};

const LONGEST: Duration = Duration::from_secs(10);
const FEWEST: usize = 3;

fn main() -> io::Result<()> {
    let arguments: Vec<String> = std::env::args().skip(1).collect();
    let [count, input, directory, commands @ ..] = &arguments[..] else {
        return Err(io::Error::other("usage: best N INPUT DIR COMMAND [-- COMMAND ..]"));
    };
    let count: usize = count.parse().map_err(io::Error::other)?;
    let commands: Vec<&[String]> = commands.split(|argument| argument == "--").collect();
    let mut best = vec![Duration::MAX; commands.len()];
    let begin = Instant::now();
    for round in 0..count {
        if round >= FEWEST && begin.elapsed() > LONGEST {
            break;
        }
        for (best, command) in best.iter_mut().zip(&commands) {
            *best = time(command, input, directory)?.min(*best);
        }
    }
    let best: Vec<String> = best.iter().map(|time| time.as_micros().to_string()).collect();
    println!("{}", best.join(" "));
    Ok(())
}

fn time(command: &[String], input: &str, directory: &str) -> io::Result<Duration> {
    let [program, arguments @ ..] = command else {
        return Err(io::Error::other("an empty command"));
    };
    let mut command = Command::new(program);
    command.args(arguments).current_dir(directory);
    command.stdin(File::open(input)?).stdout(Stdio::null());
    let begin = Instant::now();
    let status = command.status()?;
    let time = begin.elapsed();
    if !status.success() {
        return Err(io::Error::other(format!("{program}: {status}")));
    }
    Ok(time)
}
