//! On a terminal: its width, and colour where it is wanted.
mod common;
use common::{command, root, stdout};
use std::ffi::{c_char, c_int, c_ulong, CStr};
use std::fs::File;
use std::io::Read;
use std::os::fd::FromRawFd;
use std::process::{Command, Stdio};

extern "C" {
    fn posix_openpt(flags: c_int) -> c_int;
    fn grantpt(fd: c_int) -> c_int;
    fn unlockpt(fd: c_int) -> c_int;
    fn ptsname(fd: c_int) -> *mut c_char;
    fn ioctl(fd: c_int, request: c_ulong, ...) -> c_int;
}

const O_RDWR_NOCTTY: c_int = 0x102;
const TIOCSWINSZ: c_ulong = 0x5414;

/// What the program writes on a terminal of so many columns, to standard output.
fn on_terminal(columns: u16, arguments: &[&str], settings: &[(&str, &str)]) -> String {
    on_terminal_by(columns, arguments, settings, |program, theirs| program.stdout(theirs).stderr(Stdio::null()))
}

/// The same of standard error.
fn said_on_terminal(columns: u16, arguments: &[&str], settings: &[(&str, &str)]) -> String {
    on_terminal_by(columns, arguments, settings, |program, theirs| program.stdout(Stdio::null()).stderr(theirs))
}

fn on_terminal_by(
    columns: u16,
    arguments: &[&str],
    settings: &[(&str, &str)],
    give: impl FnOnce(&mut Command, File) -> &mut Command,
) -> String {
    static ONE: std::sync::Mutex<()> = std::sync::Mutex::new(());
    let _one = ONE.lock();
    let (mut ours, theirs) = unsafe {
        let fd = posix_openpt(O_RDWR_NOCTTY);
        assert!(fd >= 0 && grantpt(fd) == 0 && unlockpt(fd) == 0, "a terminal");
        let size: [u16; 4] = [24, columns, 0, 0];
        assert_eq!(ioctl(fd, TIOCSWINSZ, &size), 0);
        let name = CStr::from_ptr(ptsname(fd)).to_str().expect("a name").to_string();
        (File::from_raw_fd(fd), File::options().write(true).open(name).expect("the terminal"))
    };
    let mut program = command();
    give(program.env("TERM", "xterm").args(arguments).stdin(Stdio::null()), theirs);
    for (name, value) in settings {
        program.env(name, value);
    }
    let mut child = program.spawn().expect("the program runs");
    // The last handle of ours on its end: behind the program nobody has the terminal open.
    drop(program);
    let reader = std::thread::spawn(move || {
        let (mut text, mut part) = (Vec::new(), [0; 4096]);
        // A terminal that nobody has open any more answers with an error.
        while let Ok(n @ 1..) = ours.read(&mut part) {
            text.extend(&part[..n]);
        }
        text
    });
    child.wait().expect("its end");
    String::from_utf8(reader.join().expect("read")).expect("ASCII").replace("\r\n", "\n")
}

/// The text without colour.
fn bare(text: &str) -> String {
    text.split('\x1b').enumerate().map(|(k, part)| if k == 0 { part } else { part.split_once('m').expect("an end").1 }).collect()
}

#[test]
fn colour_is_for_terminals() {
    let arguments = ["check", "examples/refusals/2-comment/monitor.txt"];
    let coloured = on_terminal(80, &arguments, &[]);
    assert!(coloured.contains("\x1b[1;31m"), "{coloured}");
    let plain = stdout(&command().args(arguments).output().expect("the program runs"));
    assert!(!plain.contains('\x1b'));
    assert_eq!(bare(&coloured), plain);
    assert_eq!(on_terminal(80, &arguments, &[("NO_COLOR", "1")]), plain);
    assert_eq!(on_terminal(80, &arguments, &[("NO_COLOR", "")]), coloured);
    assert_eq!(on_terminal(80, &arguments, &[("TERM", "dumb")]), plain);
    assert_eq!(on_terminal(80, &[&arguments[..], &["--color=never"]].concat(), &[]), plain);
    assert_eq!(on_terminal(80, &[&arguments[..], &["--color=always"]].concat(), &[("NO_COLOR", "1")]), coloured);
    let piped = command().args(arguments).args(["--color", "always"]).output().expect("the program runs");
    assert_eq!(stdout(&piped), coloured);
}

#[test]
fn lines_fit_the_terminal() {
    let examples = [
        "box",
        "breaker",
        "breaker-guesses",
        "wide-bay",
        "refusals/9-weak-try",
        "ticketed-readers-writers",
        "refusals/9-late-closed",
        "refusals/14-table-only",
        "refusals/3-too-many",
    ];
    for example in examples {
        let folder = format!("examples/{example}");
        let mut lengths = Vec::new();
        for columns in [48, 60, 80, 132] {
            let text = bare(&on_terminal(columns, &[&folder], &[]));
            let longest = text.lines().map(|line| line.chars().count()).max().expect("lines");
            assert!(longest <= columns.into(), "{example}: {longest} of {columns} columns");
            lengths.push(text.lines().count());
            let by_setting = command().env("COLUMNS", columns.to_string()).arg(&folder).output().expect("the program runs");
            assert_eq!(stdout(&by_setting), text);
        }
        assert!(lengths.is_sorted_by(|narrow, wide| narrow >= wide), "{example}: more columns, fewer lines: {lengths:?}");
    }
    // COLUMNS comes before the terminal; what is no number does not count.
    let folder = ["examples/breaker"];
    assert_eq!(on_terminal(120, &folder, &[("COLUMNS", "60")]), on_terminal(60, &folder, &[]));
    assert_eq!(on_terminal(120, &folder, &[("COLUMNS", "wide")]), on_terminal(120, &folder, &[]));
    let mark = bare(&on_terminal(60, &["mark", "examples"], &[]));
    assert!(mark.lines().all(|line| line.chars().count() <= 60));
    assert!(root().is_dir());
}

/// A load's words fit and are coloured by where they go, which is standard error; the trace has no colour anywhere.
#[test]
fn words_beside_a_load() {
    let load = ["load", "examples/box/monitor.txt", "--seed", "1", "--threads", "3", "--frames", "20"];
    let refused = ["load", "examples/refusals/2-comment/monitor.txt", "--seed", "1", "--threads", "3", "--frames", "20"];
    for arguments in [load, refused] {
        for columns in [48, 60, 132] {
            let said = said_on_terminal(columns, &arguments, &[]);
            assert!(said.contains("\x1b[1;3"), "{said}");
            assert!(bare(&said).lines().all(|line| line.chars().count() <= columns.into()), "{said}");
            let piped = command().env("COLUMNS", columns.to_string()).args(arguments).output().expect("the program runs");
            assert_eq!(bare(&said), common::stderr(&piped));
            assert_eq!(said_on_terminal(columns, &arguments, &[("NO_COLOR", "1")]), common::stderr(&piped));
            assert_eq!(on_terminal(columns, &arguments, &[]), stdout(&piped));
        }
    }
}

/// The matrix is never broken: with 16 guards it loses its names, then goes.
#[test]
fn wide_matrices() {
    let scratch = common::Scratch::new();
    let methods: String = (0..8)
        .map(|k| {
            let first = format!("waituntil (x == {}) {{ x := 0; }}", 2 * k);
            format!("method a_long_name_of_{k} {{ {first} waituntil (x == {}) {{ x := {k}; }} }}\n", 2 * k + 1)
        })
        .collect();
    let file = scratch.put("monitor.txt", format!("monitor m {{ var x = 0 in 0..15; keep true; {methods} }}").as_bytes());
    let place = |columns: &str| {
        let output = command().env("COLUMNS", columns).arg("place").arg(&file).output().expect("the program runs");
        stdout(&output)
    };
    assert!(place("120").contains("  00  a_long_name_of_0.1   "));
    assert!(place("72").contains("\n  00    ") && !place("72").contains("\n  00  a_long"));
    assert!(!place("60").contains("Regions down"));
    assert!(place("60").lines().all(|line| line.len() <= 60));
}
