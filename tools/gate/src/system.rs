//! Calls of the system for which the standard library has no name, and what to do when interrupted.

use std::ffi::{c_char, c_int, c_short, c_uint, c_ulong, CString};
use std::fs::File;
use std::io;
use std::os::fd::AsRawFd;
use std::os::unix::ffi::OsStrExt;
use std::os::unix::fs::FileTypeExt;
use std::path::Path;
use std::sync::atomic::{AtomicI32, Ordering};

pub const EBADF: i32 = 9;
pub const EAGAIN: i32 = 11;
pub const EACCES: i32 = 13;
pub const EISDIR: i32 = 21;
pub const EFBIG: i32 = 27;
pub const ENOSPC: i32 = 28;
pub const ELOOP: i32 = 40;
pub const ECONNRESET: i32 = 104;

pub const O_NONBLOCK: i32 = 0o4000;

const TIOCOUTQ: c_ulong = 0x5411;
const FIONREAD: c_ulong = 0x541B;
const FIONBIO: c_ulong = 0x5421;
const POLLOUT: c_short = 4;

const SIGHUP: c_int = 1;
const SIGINT: c_int = 2;
const SIGKILL: c_int = 9;
const SIGPIPE: c_int = 13;
const SIGTERM: c_int = 15;
const SIG_DFL: usize = 0;
const SIG_IGN: usize = 1;

#[repr(C)]
struct PollFd {
    fd: c_int,
    events: c_short,
    revents: c_short,
}

extern "C" {
    fn geteuid() -> c_uint;
    fn ioctl(fd: c_int, request: c_ulong, ...) -> c_int;
    fn kill(process: c_int, number: c_int) -> c_int;
    fn mkfifo(path: *const c_char, mode: c_uint) -> c_int;
    fn poll(fds: *mut PollFd, count: c_ulong, milliseconds: c_int) -> c_int;
    fn raise(number: c_int) -> c_int;
    fn signal(number: c_int, handler: usize) -> usize;
}

/// The words for an error's number.
pub fn words(number: i32) -> String {
    let text = io::Error::from_raw_os_error(number).to_string();
    text.trim_end_matches(&format!(" (os error {number})")).to_string()
}

/// Whether any file may be read.
pub fn is_root() -> bool {
    unsafe { geteuid() == 0 }
}

/// Makes a named pipe.
pub fn make_fifo(path: &Path) -> io::Result<()> {
    let path = CString::new(path.as_os_str().as_bytes())?;
    done(unsafe { mkfifo(path.as_ptr(), 0o600) })
}

/// Has a read or a write fail where it would wait.
pub fn never_wait(file: &File) -> io::Result<()> {
    ask(file, FIONBIO, 1).map(drop)
}

/// How many bytes written to a pipe or a socket are still to be read.
pub fn unread(file: &File) -> io::Result<i32> {
    let is_socket = file.metadata()?.file_type().is_socket();
    ask(file, if is_socket { TIOCOUTQ } else { FIONREAD }, 0)
}

fn ask(file: &File, request: c_ulong, mut value: c_int) -> io::Result<i32> {
    done(unsafe { ioctl(file.as_raw_fd(), request, &mut value as *mut c_int) })?;
    Ok(value)
}

/// Whether nobody can read any more what is written to a pipe or a socket.
pub fn is_unreadable(file: &File) -> bool {
    polled(file, 0, 0) != 0
}

/// Waits for room in a pipe or a socket, some milliseconds at most.
pub fn wait_for_room(file: &File) {
    polled(file, POLLOUT, 5);
}

fn polled(file: &File, events: c_short, milliseconds: c_int) -> c_short {
    let mut asked = PollFd { fd: file.as_raw_fd(), events, revents: 0 };
    unsafe { poll(&mut asked, 1, milliseconds) };
    asked.revents
}

/// Ends a process that leads a group, and all others of the group.
pub fn kill_group(leader: u32) {
    unsafe { kill(-(leader as c_int), SIGKILL) };
}

fn done(answer: c_int) -> io::Result<()> {
    match answer {
        -1 => Err(io::Error::last_os_error()),
        _ => Ok(()),
    }
}

/// A signal that asks this program to end; 0 if none has come.
static INTERRUPTED: AtomicI32 = AtomicI32::new(0);

extern "C" fn interrupt(number: c_int) {
    INTERRUPTED.store(number, Ordering::Relaxed);
}

/// From now on a signal to end is heeded once all is cleaned up, and writing to a pipe that nobody
/// reads is an error.
pub fn clean_up_first() {
    let handler = interrupt as extern "C" fn(c_int) as usize;
    for number in [SIGHUP, SIGINT, SIGTERM] {
        let before = unsafe { signal(number, handler) };
        if before == SIG_IGN {
            unsafe { signal(number, SIG_IGN) };
        }
    }
    unsafe { signal(SIGPIPE, SIG_IGN) };
}

/// Whether the work is to be broken off.
pub fn is_interrupted() -> bool {
    INTERRUPTED.load(Ordering::Relaxed) != 0
}

/// Fails if it is.
pub fn unless_interrupted() -> io::Result<()> {
    match is_interrupted() {
        true => Err(io::Error::other("interrupted")),
        false => Ok(()),
    }
}

/// Ends this program as the signal asked that has come, if one has.
pub fn end_if_interrupted() {
    let number = INTERRUPTED.load(Ordering::Relaxed);
    if number != 0 {
        unsafe { signal(number, SIG_DFL) };
        unsafe { raise(number) };
    }
}
