//! A line on a terminal while something takes long. A call of the library says nothing before its end: what is told is the time.
use std::io::{self, IsTerminal, Write};
use std::sync::mpsc::{channel, RecvTimeoutError};
use std::time::{Duration, Instant};

/// So long nothing is told.
const AT_FIRST: Duration = Duration::from_millis(700);
const BETWEEN: Duration = Duration::from_millis(200);

/// Does some work; where standard error is a terminal, it says there what is done and for how long by now.
pub fn meanwhile<T>(what: &str, work: impl FnOnce() -> T) -> T {
    if io::stderr().is_terminal() {
        telling(io::stderr(), what, work)
    } else {
        work()
    }
}

/// Does some work. Where it takes long, a line says so; behind the work it is gone.
pub fn telling<T>(mut to: impl Write + Send, what: &str, work: impl FnOnce() -> T) -> T {
    let (done, over) = channel::<()>();
    let teller = move || {
        let begun = Instant::now();
        let mut wait = AT_FIRST;
        while over.recv_timeout(wait) == Err(RecvTimeoutError::Timeout) {
            let _ = write!(to, "\r{what}, {} s", begun.elapsed().as_secs());
            let _ = to.flush();
            wait = BETWEEN;
        }
        if wait == BETWEEN {
            let _ = write!(to, "\r\x1b[K");
        }
    };
    std::thread::scope(|scope| {
        // The work stays on this thread, which has the stack for it. Where there is no other to be had, nothing is told.
        let teller = std::thread::Builder::new().spawn_scoped(scope, teller);
        let result = work();
        drop(done);
        drop(teller.map(|teller| teller.join()));
        result
    })
}
