//! Hands input over in parts: each is written once the one before has been taken.

use std::fs::{File, OpenOptions};
use std::io::{self, ErrorKind, Write};
use std::os::unix::fs::OpenOptionsExt;
use std::path::Path;
use std::sync::atomic::{AtomicBool, Ordering};
use std::thread::sleep;
use std::time::{Duration, Instant};

use crate::system::{is_interrupted, is_unreadable, never_wait, unread, wait_for_room, O_NONBLOCK};

/// Waits for a fact that has to be asked for: often at first, then less and less.
pub struct Patience {
    pause: Duration,
}

impl Patience {
    const LONGEST: Duration = Duration::from_millis(10);

    pub fn new() -> Patience {
        Patience { pause: Duration::from_micros(100) }
    }

    /// To be called between one question and the next.
    pub fn wait(&mut self) {
        sleep(self.pause);
        self.pause = Patience::LONGEST.min(self.pause * 5 / 4);
    }
}

/// How long a run lasts: until its program has ended or has had its time.
pub struct Term {
    has_ended: AtomicBool,
    latest: Instant,
}

impl Term {
    pub fn of(limit: Duration) -> Term {
        Term { has_ended: AtomicBool::new(false), latest: Instant::now() + limit }
    }

    pub fn end(&self) {
        self.has_ended.store(true, Ordering::Relaxed);
    }

    pub fn is_over(&self) -> bool {
        let has_ended = self.has_ended.load(Ordering::Relaxed);
        has_ended || is_interrupted() || self.latest < Instant::now()
    }
}

/// Feeds whoever reads what is written to a pipe or a socket, and closes it.
pub fn feed(mut to: File, parts: &[Vec<u8>], term: &Term) -> io::Result<()> {
    never_wait(&to)?;
    for part in parts {
        match hand_over(&mut to, part, term) {
            // Nobody reads the rest.
            Err(error) if error.kind() == ErrorKind::BrokenPipe => break,
            Err(error) if error.kind() == ErrorKind::ConnectionReset => break,
            handed => handed?,
        }
    }
    Ok(())
}

/// Writes a part, and waits until it has been taken.
fn hand_over(to: &mut File, part: &[u8], term: &Term) -> io::Result<()> {
    let mut rest = part;
    while !rest.is_empty() && !term.is_over() {
        match to.write(rest) {
            Ok(count) => rest = &rest[count..],
            Err(error) if error.kind() == ErrorKind::WouldBlock => wait_for_room(to),
            Err(error) => return Err(error),
        }
    }
    let mut patience = Patience::new();
    while unread(to)? > 0 && !is_unreadable(to) && !term.is_over() {
        patience.wait();
    }
    Ok(())
}

/// Feeds whoever opens a named pipe, and lets whoever opens it again find nothing.
pub fn feed_named(path: &Path, parts: &[Vec<u8>], term: &Term) -> io::Result<()> {
    let (mut parts, mut patience) = (parts, Patience::new());
    while !term.is_over() {
        // This fails while nobody has it open to read.
        if let Ok(to) = OpenOptions::new().write(true).custom_flags(O_NONBLOCK).open(path) {
            feed(to, parts, term)?;
            parts = &[];
        }
        patience.wait();
    }
    Ok(())
}
