//! A made-up class with good, refused and broken hand-ins.
mod common;
use common::{command, panel, root, status, stderr, stdout, Json, Scratch, BOX};
use std::os::unix::fs::symlink;
use std::process::{Command, Stdio};
use std::time::Duration;

const PART: &[u8] = b"000100\n010100\n020001\n030101\n010100\n";

fn class() -> Scratch {
    let class = Scratch::new();
    class.put("anna/monitor.txt", BOX);
    class.put("anna/trace.txt", b"000100\n010001\n000101\n");
    class.put("ben/late/monitor.txt", b"monitor m {");
    class.put("ben/late/trace.txt", b"000100\n");
    class.put("cleo/monitor.txt", BOX);
    class.put("cleo/trace-2.txt", PART);
    class.put("cleo/trace-1.txt", b"");
    class.put("cleo/trace-3.txt", b"000100\n000100\n");
    class.put("cleo/notes.txt", b"no trace");
    class.put("dora/monitor.txt/x", b"a folder in place of the file");
    class.put("emil/monitor.txt", BOX);
    class.put("emil/trace.txt/x", b"a folder in place of the trace");
    class.put("fay/monitor.txt", b"\x1b[2J\0\xff");
    class.put("greta/monitor.txt", &vec![b' '; 10 << 20]);
    class.put("none/readme.txt", b"no hand-in");
    class.put("=1+1/monitor.txt", BOX);
    class.put("with, comma \"and\" quotes\x1b[2J/monitor.txt", BOX);
    symlink("..", class.path().join("anna/loop")).expect("a link");
    symlink(".", class.path().join("loop")).expect("a link");
    symlink("nowhere", class.path().join("none/monitor.txt")).expect("a link");
    class
}

/// Rows and fields by RFC 4180.
fn csv(text: &str) -> Vec<Vec<String>> {
    let (mut rows, mut row, mut field, mut quoted) = (Vec::new(), Vec::new(), String::new(), false);
    let mut letters = text.chars().peekable();
    while let Some(c) = letters.next() {
        match c {
            '"' if quoted && letters.peek() == Some(&'"') => field.extend(letters.next()),
            '"' => quoted = !quoted,
            ',' if !quoted => row.push(std::mem::take(&mut field)),
            '\r' if !quoted => {
                assert_eq!(letters.next(), Some('\n'));
                row.push(std::mem::take(&mut field));
                rows.push(std::mem::take(&mut row));
            }
            _ => field.push(c),
        }
    }
    assert!(row.is_empty() && field.is_empty() && !quoted);
    rows
}

#[test]
fn a_class_in_words() {
    let class = class();
    let output = command().env("COLUMNS", "100").arg("mark").arg(class.path()).output().expect("the program runs");
    common::assert_tame(&output.stdout);
    assert_eq!((status(&output), stderr(&output)), (2, String::new()));
    let text = stdout(&output);
    let lines: Vec<Vec<&str>> = text.lines().map(|line| line.split_whitespace().collect()).collect();
    let line =
        |begin: &str| lines.iter().find(|line| line.join(" ").starts_with(begin)).unwrap_or_else(|| panic!("{begin}: {text}")).join(" ");
    assert_eq!(line("anna"), "anna accepted 2 entries");
    assert_eq!(line("trace.txt accepted"), "trace.txt accepted both machines accept");
    assert_eq!(line("ben/late"), "ben/late refused 4: the file ends before its monitor does (byte 11)");
    assert_eq!(line("trace-1.txt"), "trace-1.txt accepted both machines accept");
    assert_eq!(line("trace-2.txt"), "trace-2.txt refused plain accepts, table 14 at frame 4: they part");
    assert_eq!(line("trace-3.txt"), "trace-3.txt refused both machines: 14 at frame 1");
    assert_eq!(line("dora"), "dora unreadable monitor.txt: Is a directory");
    assert_eq!(line("trace.txt unreadable"), "trace.txt unreadable Is a directory");
    assert_eq!(line("fay"), "fay refused 2: a byte that begins no token (byte 0)");
    assert_eq!(line("greta"), "greta refused 1: the file is too long");
    assert_eq!(line("none"), "none unreadable monitor.txt: No such file or directory");
    assert_eq!(lines.last().unwrap().join(" "), "10 hand-ins: 3 accepted, 4 refused (1 for a trace only), 3 unreadable");
}

#[test]
fn a_class_as_rows_and_objects() {
    let class = class();
    let arguments = |option: &str| [std::ffi::OsString::from("mark"), class.path().into(), option.into()];
    let rows = csv(&stdout(&panel(&arguments("--csv"))));
    assert!(rows.iter().all(|row| row.len() == rows[0].len()));
    let column = |name: &str| rows[0].iter().position(|head| head == name).unwrap_or_else(|| panic!("{name}"));
    let paths: Vec<&str> = rows[1..].iter().map(|row| &row[0][..]).collect();
    let wanted =
        ["./=1+1", "anna", "ben/late", "cleo", "cleo", "cleo", "dora", "emil", "fay", "greta", "none", "with, comma \"and\" quotes?[2J"];
    assert_eq!(paths, wanted);
    let cell = |row: usize, name: &str| &rows[row][column(name)][..];
    assert_eq!([cell(3, "verdict"), cell(3, "number"), cell(3, "first"), cell(3, "entries")], ["refused", "4", "11", ""]);
    assert_eq!(
        [cell(5, "trace"), cell(5, "plain"), cell(5, "table"), cell(5, "table_frame"), cell(5, "parts_at")],
        ["trace-2.txt", "0", "14", "4", "4"]
    );
    assert_eq!([cell(6, "plain"), cell(6, "plain_frame"), cell(6, "parts_at")], ["14", "1", ""]);
    assert_eq!([cell(7, "verdict"), cell(7, "error")], ["unreadable", "monitor.txt: Is a directory"]);
    assert_eq!([cell(8, "verdict"), cell(8, "trace"), cell(8, "error")], ["accepted", "trace.txt", "Is a directory"]);

    let output = panel(&arguments("--json"));
    assert_eq!(status(&output), 2);
    common::assert_tame(&output.stdout);
    let object = Json::read(&stdout(&output));
    let hand_ins = object.at("handins").list();
    assert_eq!(hand_ins.len(), 10);
    assert_eq!([object.at("accepted"), object.at("refused"), object.at("unreadable")].map(Json::number), [3, 4, 3]);
    assert_eq!(hand_ins[0].at("path").text(), "=1+1");
    assert_eq!(hand_ins[9].at("path").text(), "with, comma \"and\" quotes\x1b[2J");
    assert_eq!(hand_ins[2].at("answer").numbers(), [4, 11, 0]);
    let traces = hand_ins[3].at("traces").list();
    assert_eq!(traces[1].at("table").numbers(), [14, 4, 0]);
    assert_eq!((traces[1].at("parts_at"), traces[2].at("parts_at")), (&Json::Number(4), &Json::Null));
    assert_eq!(hand_ins[4].at("error").text(), "monitor.txt: Is a directory");
}

/// A pipe in place of a file is not opened: nobody may ever write to it.
#[test]
fn pipes_are_not_waited_for() {
    let class = Scratch::new();
    class.put("a/monitor.txt", BOX);
    let made = |name: &str| Command::new("mkfifo").arg(class.path().join(name)).status().is_ok_and(|status| status.success());
    std::fs::create_dir(class.path().join("b")).expect("a folder");
    if !made("a/trace.txt") || !made("b/monitor.txt") {
        return;
    }
    let mut child = command().arg("mark").arg(class.path()).stdout(Stdio::piped()).spawn().expect("the program runs");
    for _ in 0..200 {
        if child.try_wait().expect("its state").is_some() {
            break;
        }
        std::thread::sleep(Duration::from_millis(100));
    }
    // One that has ended is past harm.
    let _ = child.kill();
    let output = child.wait_with_output().expect("its output");
    assert_eq!(stdout(&output).matches("Not a regular file").count(), 2, "or it waits for ever");
    assert_eq!(status(&output), 2);
}

#[test]
fn statuses_of_classes() {
    let class = Scratch::new();
    class.put("a/monitor.txt", BOX);
    let marked = || status(&panel(&["mark".as_ref(), class.path().as_os_str()]));
    assert_eq!(marked(), 0);
    class.put("a/trace.txt", PART);
    assert_eq!(marked(), 1);
    class.put("a/trace.txt", b"");
    class.put("b/monitor.txt", b"");
    assert_eq!(marked(), 1);
    class.put("c/monitor.txt/x", b"");
    assert_eq!(marked(), 2);
}

/// Thousands, in order, the same each time.
#[test]
fn a_large_class() {
    let class = Scratch::new();
    let breaker = std::fs::read(root().join("examples/breaker/monitor.txt")).expect("the file");
    let trace = std::fs::read(root().join("examples/breaker/trace.txt")).expect("the trace");
    for k in 0..2000 {
        class.put(&format!("group {}/{k:04}/monitor.txt", k % 7), if k % 3 == 0 { b"x" } else { &breaker });
        class.put(&format!("group {}/{k:04}/trace.txt", k % 7), &trace);
    }
    let arguments = ["mark".as_ref(), class.path().as_os_str(), "--csv".as_ref()];
    let first = stdout(&panel(&arguments));
    let paths: Vec<String> = csv(&first)[1..].iter().map(|row| row[0].clone()).collect();
    assert_eq!(paths.len(), 2000);
    assert!(paths.is_sorted());
    assert_eq!(stdout(&panel(&arguments)), first);
}
