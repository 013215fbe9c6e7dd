//! What the tests share: running the program, folders to try things in, and a reader of JSON.
#![allow(dead_code)]
use std::ffi::OsStr;
use std::io::Write;
use std::path::{Path, PathBuf};
use std::process::{Command, Output, Stdio};
use std::sync::atomic::{AtomicUsize, Ordering};

/// The repository.
pub fn root() -> PathBuf {
    Path::new(env!("CARGO_MANIFEST_DIR")).join("../..").canonicalize().expect("the repository")
}

/// The program, in the repository, with nothing of the caller's terminal.
pub fn command() -> Command {
    let mut command = Command::new(env!("CARGO_BIN_EXE_panel"));
    command.current_dir(root()).env_remove("COLUMNS").env_remove("NO_COLOR").env_remove("TERM");
    command
}

pub fn panel<A: AsRef<OsStr>>(arguments: &[A]) -> Output {
    command().args(arguments).stdin(Stdio::null()).output().expect("the program runs")
}

/// The same with bytes on standard input; the program may leave some of them unread.
pub fn panel_reading<A: AsRef<OsStr>>(arguments: &[A], bytes: &[u8]) -> Output {
    let mut child =
        command().args(arguments).stdin(Stdio::piped()).stdout(Stdio::piped()).stderr(Stdio::piped()).spawn().expect("the program runs");
    let mut stdin = child.stdin.take().expect("its input");
    let bytes = bytes.to_vec();
    let writer = std::thread::spawn(move || drop(stdin.write_all(&bytes)));
    let output = child.wait_with_output().expect("its output");
    writer.join().expect("written");
    output
}

pub fn stdout(output: &Output) -> String {
    String::from_utf8(output.stdout.clone()).expect("ASCII on standard output")
}

pub fn stderr(output: &Output) -> String {
    String::from_utf8(output.stderr.clone()).expect("ASCII on standard error")
}

pub fn status(output: &Output) -> i32 {
    output.status.code().expect("an exit status")
}

/// Nothing but printable ASCII and line feeds.
pub fn assert_tame(bytes: &[u8]) {
    if let Some(byte) = bytes.iter().find(|&&byte| byte != b'\n' && !(0x20..0x7F).contains(&byte)) {
        panic!("the byte {byte:02X} in: {}", String::from_utf8_lossy(bytes));
    }
}

/// A folder that is gone with its last use.
pub struct Scratch(PathBuf);

impl Scratch {
    pub fn new() -> Scratch {
        static NEXT: AtomicUsize = AtomicUsize::new(0);
        let name = format!("panel-test-{}-{}", std::process::id(), NEXT.fetch_add(1, Ordering::Relaxed));
        let path = std::env::temp_dir().join(name);
        std::fs::create_dir_all(&path).expect("a folder");
        Scratch(path)
    }

    pub fn path(&self) -> &Path {
        &self.0
    }

    /// Writes a file, with the folders above it.
    pub fn put(&self, name: &str, bytes: &[u8]) -> PathBuf {
        let path = self.0.join(name);
        std::fs::create_dir_all(path.parent().expect("a folder")).expect("its folder");
        std::fs::write(&path, bytes).expect("written");
        path
    }
}

impl Drop for Scratch {
    fn drop(&mut self) {
        let _ = std::fs::remove_dir_all(&self.0);
    }
}

pub const BOX: &[u8] = b"monitor box {
  var full = 0 in 0..1;
  keep true;
  method put { waituntil (full == 0) { full := 1; } }
  method get { waituntil (full == 1) { full := 0; } }
}
";

/// The monitor files and traces of crates/replay.
pub fn cases() -> Vec<(Vec<u8>, Vec<u8>)> {
    let data = std::fs::read(root().join("crates/replay/data/cases.bin")).expect("the cases");
    let mut rest = &data[..];
    let mut take = |n: usize| {
        let (head, tail) = rest.split_at(n);
        rest = tail;
        head.to_vec()
    };
    let mut cases = Vec::new();
    let mut left = data.len();
    while left > 0 {
        let lengths = take(8);
        let length = |at: usize| u32::from_le_bytes(lengths[at..at + 4].try_into().expect("four bytes")) as usize;
        cases.push((take(length(0)), take(length(4))));
        left -= 8 + length(0) + length(4);
    }
    cases
}

/// A value of JSON; numbers are whole.
#[derive(Clone, Debug, PartialEq)]
pub enum Json {
    Null,
    Number(i64),
    Text(String),
    List(Vec<Json>),
    Object(Vec<(String, Json)>),
}

impl Json {
    /// Reads one value that is the whole text.
    pub fn read(text: &str) -> Json {
        let mut rest = text.trim_end_matches('\n').as_bytes();
        let value = value(&mut rest);
        assert!(rest.is_empty(), "behind the value: {}", String::from_utf8_lossy(rest));
        value
    }

    pub fn get(&self, key: &str) -> Option<&Json> {
        match self {
            Json::Object(members) => members.iter().find(|(name, _)| name == key).map(|(_, value)| value),
            _ => None,
        }
    }

    pub fn at(&self, key: &str) -> &Json {
        self.get(key).unwrap_or_else(|| panic!("no {key} in {self:?}"))
    }

    pub fn list(&self) -> &[Json] {
        match self {
            Json::List(items) => items,
            other => panic!("no list: {other:?}"),
        }
    }

    pub fn number(&self) -> i64 {
        match self {
            Json::Number(number) => *number,
            other => panic!("no number: {other:?}"),
        }
    }

    pub fn numbers(&self) -> Vec<i64> {
        self.list().iter().map(Json::number).collect()
    }

    pub fn text(&self) -> &str {
        match self {
            Json::Text(text) => text,
            other => panic!("no text: {other:?}"),
        }
    }

    pub fn keys(&self) -> Vec<&str> {
        match self {
            Json::Object(members) => members.iter().map(|(name, _)| &name[..]).collect(),
            other => panic!("no object: {other:?}"),
        }
    }
}

fn take(rest: &mut &[u8], byte: u8) -> bool {
    let found = rest.first() == Some(&byte);
    if found {
        *rest = &rest[1..];
    }
    found
}

fn list(rest: &mut &[u8], end: u8, mut item: impl FnMut(&mut &[u8])) {
    if take(rest, end) {
        return;
    }
    loop {
        item(rest);
        if take(rest, end) {
            return;
        }
        assert!(take(rest, b','), "a comma at {}", String::from_utf8_lossy(&rest[..rest.len().min(20)]));
    }
}

fn text(rest: &mut &[u8]) -> String {
    assert!(take(rest, b'"'), "a text");
    let mut units: Vec<u16> = Vec::new();
    loop {
        let byte = rest[0];
        *rest = &rest[1..];
        match byte {
            b'"' => return String::from_utf16(&units).expect("characters"),
            b'\\' => {
                let escape = rest[0];
                *rest = &rest[1..];
                units.push(match escape {
                    b'u' => {
                        let digits = std::str::from_utf8(&rest[..4]).expect("digits");
                        let unit = u16::from_str_radix(digits, 16).expect("digits");
                        *rest = &rest[4..];
                        unit
                    }
                    b'"' | b'\\' => escape.into(),
                    other => panic!("an escape {other}"),
                });
            }
            0x20..0x7F => units.push(byte.into()),
            other => panic!("the byte {other} in a text"),
        }
    }
}

fn value(rest: &mut &[u8]) -> Json {
    match rest[0] {
        b'{' => {
            take(rest, b'{');
            let mut members = Vec::new();
            list(rest, b'}', |rest| {
                let name = text(rest);
                assert!(take(rest, b':'), "a colon");
                members.push((name, value(rest)));
            });
            Json::Object(members)
        }
        b'[' => {
            take(rest, b'[');
            let mut items = Vec::new();
            list(rest, b']', |rest| items.push(value(rest)));
            Json::List(items)
        }
        b'"' => Json::Text(text(rest)),
        b'n' => {
            assert!(rest.starts_with(b"null"));
            *rest = &rest[4..];
            Json::Null
        }
        _ => {
            let n = rest.iter().take_while(|byte| byte.is_ascii_digit() || **byte == b'-').count();
            let digits = std::str::from_utf8(&rest[..n]).expect("digits");
            let number = digits.parse().unwrap_or_else(|_| panic!("no value at {}", String::from_utf8_lossy(&rest[..rest.len().min(20)])));
            *rest = &rest[n..];
            Json::Number(number)
        }
    }
}
