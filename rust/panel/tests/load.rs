//! Loads: the trace, the words beside it, what is refused, and what tools read.
mod common;
use common::{command, panel, panel_reading, root, status, stderr, stdout, Json, Scratch, BOX};
use std::fs;
use std::io::{self, Write};
use std::path::Path;
use std::process::Stdio;
use std::sync::{Arc, Mutex};
use std::time::Duration;

const MONITOR: &str = "examples/box/monitor.txt";
/// Six frames, and then all three threads wait.
const SHORT: [&str; 8] = ["load", MONITOR, "--seed", "1", "--threads", "3", "--frames", "20"];
/// As many as are wanted.
const WHOLE: [&str; 8] = ["load", "examples/barrier/monitor.txt", "--seed", "2026", "--threads", "5", "--frames", "40"];

fn kept(name: &str) -> String {
    fs::read_to_string(root().join("examples").join(name).join("trace-load.txt")).expect("the trace")
}

/// A text without its line ends.
fn joined(text: &str) -> String {
    text.split_whitespace().collect::<Vec<_>>().join(" ")
}

#[test]
fn a_load_is_a_trace() {
    let output = panel(&WHOLE);
    assert_eq!((status(&output), stdout(&output)), (0, kept("barrier")));
    assert_eq!(stderr(&output), "40 frames made (seed 2026, 5 threads)\n");
    let output = panel(&SHORT);
    assert_eq!((status(&output), stdout(&output)), (0, kept("box")));
    let said = joined(&stderr(&output));
    assert!(
        said.starts_with("6 frames made of 20 wanted (seed 1, 3 threads): a standstill Nobody can move any more but by a recheck"),
        "{said}"
    );
    assert!(said.ends_with("full = 1 | waiting on guard 00: 01 02 00 at put | notified by the plain machine: 01 02"), "{said}");
    // What was wanted and no more is no standstill.
    let output = panel(&[&SHORT[..7], &["6"]].concat());
    assert_eq!((stdout(&output), stderr(&output)), (kept("box"), "6 frames made (seed 1, 3 threads)\n".into()));
    let output = panel(&[&SHORT[..7], &["0"]].concat());
    assert_eq!((status(&output), stdout(&output), stderr(&output)), (0, String::new(), "0 frames made (seed 1, 3 threads)\n".into()));
    let output = panel(&["load", MONITOR, "--seed", "1", "--threads", "1", "--frames", "1"]);
    assert_eq!((stdout(&output), stderr(&output)), ("000001\n".into(), "1 frame made (seed 1, 1 thread)\n".into()));
}

/// The same seed however it is written, by file and by standard input; another gives another trace.
#[test]
fn seeds() {
    let made = |seed: &str| {
        let output = panel(&["load", "examples/barrier/monitor.txt", "--seed", seed, "--threads", "16", "--frames", "300"]);
        assert_eq!(status(&output), 0, "{seed}: {}", stderr(&output));
        let trace = stdout(&output);
        assert_eq!(trace.len(), 2100);
        trace
    };
    for [one, other] in [["0", "0x0"], ["2026", "0x7EA"], ["2026", "0X00007ea"], ["4294967295", "0xFFFFFFFF"]] {
        assert_eq!(made(one), made(other));
    }
    assert!(made("0") != made("1") && made("0") != made("4294967295") && made("1") != made("0x80000001"));
    let file = fs::read(root().join("examples/barrier/monitor.txt")).expect("the file");
    let piped = panel_reading(&["load", "-", "--seed=7", "--frames=300", "--threads=16"], &file);
    assert_eq!(stdout(&piped), made("7"));
}

#[test]
fn a_load_in_a_file() {
    let scratch = Scratch::new();
    let to = scratch.path().join("a load's.txt");
    let arguments: Vec<&std::ffi::OsStr> = WHOLE.iter().map(|word| word.as_ref()).collect();
    let output = panel(&[&arguments[..], &["-o".as_ref(), to.as_os_str()]].concat());
    assert_eq!((status(&output), stdout(&output)), (0, String::new()));
    assert_eq!(fs::read_to_string(&to).expect("written"), kept("barrier"));
    let said = stderr(&output);
    let (made, next) = said.split_once('\n').expect("lines");
    assert_eq!(made, "40 frames made (seed 2026, 5 threads)");
    // The command that is told runs it, as a shell takes it.
    let told = next.trim().strip_prefix("To see its run: panel ").expect("a command");
    assert!(told.contains("examples/barrier/monitor.txt '") && told.contains("/a load'\\''s.txt'"), "{told}");
    let by_shell = std::process::Command::new("sh")
        .current_dir(root())
        .args(["-c", &format!("\"$0\" {told}"), env!("CARGO_BIN_EXE_panel")])
        .output()
        .expect("a shell");
    assert!(stdout(&by_shell).contains("both   accept the trace, 40 frames"), "{}", stdout(&by_shell));
    // Standard output by its name.
    let output = panel(&[&WHOLE[..], &["-o", "-"]].concat());
    assert_eq!((stdout(&output), stderr(&output)), (kept("barrier"), "40 frames made (seed 2026, 5 threads)\n".into()));
    // What is refused is not written, and what is there stays.
    let put = scratch.put("old.txt", b"old");
    let refused = ["load", MONITOR, "--seed", "1", "--threads", "17", "--frames", "3", "-o"].map(std::ffi::OsStr::new);
    assert_eq!(status(&panel(&[&refused[..], &[put.as_os_str()]].concat())), 1);
    assert_eq!(fs::read(&put).expect("there"), b"old");
    let put = scratch.put("monitor.txt", BOX);
    let over = ["--seed", "1", "--threads", "2", "--frames", "3"].map(std::ffi::OsStr::new);
    let output = panel(&[&["load".as_ref(), put.as_os_str(), "-o".as_ref(), put.as_os_str()][..], &over].concat());
    assert!(status(&output) == 2 && stderr(&output).contains("is read and would be written over"));
    assert_eq!(fs::read(&put).expect("there"), BOX);
    let output = panel(&[&SHORT[..], &["-o", "none/x.txt"]].concat());
    assert_eq!((status(&output), stderr(&output)), (2, "panel: none/x.txt: No such file or directory\n".into()));
}

/// With --run the run stands on standard output as `run` tells it, but for the trace's name.
#[test]
fn a_load_and_its_run() {
    for (arguments, name, load) in [(SHORT, "box", "load (seed 1, 3 threads)"), (WHOLE, "barrier", "load (seed 2026, 5 threads)")] {
        let (file, trace) = (format!("examples/{name}/monitor.txt"), format!("examples/{name}/trace-load.txt"));
        let run = stdout(&panel(&["run", &file, &trace]));
        let output = panel(&[&arguments[..], &["--run"]].concat());
        assert_eq!((status(&output), stdout(&output)), (0, run.replace(&trace, load)));
        assert_eq!(stderr(&output), stderr(&panel(&arguments)));
        let scratch = Scratch::new();
        let to = scratch.path().join("trace.txt");
        let words: Vec<&std::ffi::OsStr> = arguments.iter().map(|word| word.as_ref()).collect();
        let output = panel(&[&words[..], &["--run".as_ref(), "-o".as_ref(), to.as_os_str()]].concat());
        assert_eq!(fs::read_to_string(&to).expect("written"), kept(name));
        assert_eq!(joined(&stdout(&output)), joined(&run.replace(&trace, to.to_str().expect("ASCII"))));
    }
}

#[test]
fn loads_for_tools() {
    for (arguments, name, frames) in [(SHORT, "box", 6), (WHOLE, "barrier", 40)] {
        let output = panel(&[&arguments[..], &["--json"]].concat());
        assert_eq!((status(&output), stderr(&output)), (0, String::new()));
        assert_eq!(stdout(&output).matches('\n').count(), 1);
        let load = Json::read(&stdout(&output));
        assert_eq!(load.keys(), ["answer", "frames", "trace"]);
        assert_eq!((load.at("answer").numbers(), load.at("frames").number()), (vec![0, 0, 0], frames));
        let lines: String = load.at("trace").list().iter().map(|line| format!("{}\n", line.text())).collect();
        assert_eq!(lines, kept(name));
        let with_run = Json::read(&stdout(&panel(&[&arguments[..], &["--json", "--run"]].concat())));
        assert_eq!(with_run.keys(), ["answer", "frames", "trace", "run"]);
        assert_eq!(with_run.at("trace"), load.at("trace"));
        let (file, trace) = (format!("examples/{name}/monitor.txt"), format!("examples/{name}/trace-load.txt"));
        assert_eq!(*with_run.at("run"), Json::read(&stdout(&panel(&["run", &file, &trace, "--json"]))));
    }
    let object = |file: &str, threads: &str| {
        let output = panel(&["load", file, "--seed", "1", "--threads", threads, "--frames", "5", "--json", "--run"]);
        assert_eq!((status(&output), stderr(&output)), (1, String::new()));
        stdout(&output)
    };
    assert_eq!(object(MONITOR, "0"), "{\"answer\":[16,0,0]}\n");
    assert_eq!(object("examples/refusals/1-too-long/monitor.txt", "17"), "{\"answer\":[16,0,0]}\n");
    assert_eq!(object("examples/refusals/9-midway/monitor.txt", "1"), "{\"answer\":[9,2,2]}\n");
    let none = stdout(&panel(&[&SHORT[..7], &["0", "--json"]].concat()));
    assert_eq!(none, "{\"answer\":[0,0,0],\"frames\":0,\"trace\":[]}\n");
}

/// 16 before the file's; both in words on standard error, and nothing on standard output.
#[test]
fn refused_loads() {
    let refused = |file: &str, threads: &str| {
        let output = command()
            .env("COLUMNS", "80")
            .args(["load", file, "--seed", "1", "--threads", threads, "--frames", "5"])
            .stdin(Stdio::null())
            .output()
            .expect("the program runs");
        assert_eq!((status(&output), stdout(&output)), (1, String::new()), "{file} {threads}");
        stderr(&output)
    };
    for file in [MONITOR, "examples/refusals/1-too-long/monitor.txt", "examples/refusals/9-midway/monitor.txt"] {
        for (threads, asked) in [("0", "No thread is"), ("17", "17 threads are"), ("4294967297", "4,294,967,297 threads are")] {
            let said = joined(&refused(file, threads));
            assert!(said.starts_with("threads: refused, 16: the count of threads is not 1 to 16 "), "{said}");
            assert!(said.contains(&format!(" {asked} asked for. ")) && said.contains("What to do: Ask for 1 to 16 threads."), "{said}");
        }
    }
    // A file's refusal is told as `check` tells it.
    let folders = fs::read_dir(root().join("examples/refusals")).expect("a folder");
    let mut files = 0;
    for folder in folders {
        let file = Path::new("examples/refusals").join(folder.expect("an entry").file_name()).join("monitor.txt");
        let file = file.to_str().expect("ASCII");
        let check = panel(&["check", file]);
        if status(&check) == 1 {
            assert_eq!(refused(file, "16"), stdout(&check), "{file}");
            files += 1;
        }
    }
    assert!(files >= 20, "{files}");
}

#[test]
fn wrong_arguments_of_loads() {
    let wrong = |arguments: &[&str], what: &str| {
        let output = panel(&[&["load"][..], arguments].concat());
        let said = stderr(&output);
        assert_eq!((status(&output), stdout(&output)), (2, String::new()), "{arguments:?}: {said}");
        assert!(said.starts_with(&format!("panel: {what}")) && said.ends_with("see 'panel load --help'\n"), "{arguments:?}: {said}");
    };
    wrong(&[], "an argument is missing: panel load FILE --seed S --threads N --frames K");
    wrong(&[MONITOR, "--threads", "1", "--frames", "1"], "'--seed S' is missing");
    wrong(&[MONITOR, "--seed", "1", "--frames", "1"], "'--threads N' is missing");
    wrong(&[MONITOR, "--seed", "1", "--threads", "1"], "'--frames K' is missing");
    let numbers = |seed, threads, frames| [MONITOR, "--seed", seed, "--threads", threads, "--frames", frames];
    for seed in ["4294967296", "-1", "", "x", "0x", "0x100000000", "0x+1", "0xG", "7 ", "1.5", "99999999999999999999999"] {
        let what = format!("'--seed {seed}': a number from 0 to 4294967295, or 0x0 to 0xFFFFFFFF");
        wrong(&numbers(seed, "1", "1"), &what);
    }
    for number in ["-1", "", "all", "0x10", "99999999999999999999999", "3.0"] {
        wrong(&numbers("1", number, "1"), &format!("'--threads {number}': how many threads, 1 to 16"));
        wrong(&numbers("1", "1", number), &format!("'--frames {number}': how many frames"));
    }
    wrong(&[&numbers("1", "1", "1")[..], &["--json", "-o", "x"]].concat(), "'--output' does not go with '--json'");
    wrong(&[&numbers("1", "1", "1")[..], &["--run", "-o", "-"]].concat(), "'--run' and '-o -' would both write to standard output");
    wrong(&[&numbers("1", "1", "1")[..], &["--points"]].concat(), "unknown option '--points'");
    wrong(&[&numbers("1", "1", "1")[..], &["--color", "blue"]].concat(), "'--color' is auto, always or never");
    wrong(&[&numbers("1", "1", "1")[..], &["trace.txt"]].concat(), "'trace.txt' is an argument too many");
}

/// More frames than there is memory for: told in words, and only where nothing is refused before.
#[test]
fn too_many_frames() {
    let load = |threads: &str, frames: &str| panel(&["load", MONITOR, "--seed", "1", "--threads", threads, "--frames", frames]);
    for frames in ["18446744073709551615", "2635249153387078803", "2635249153387078802", "1000000000000000000"] {
        for more in [&[][..], &["--json"], &["--run"]] {
            let output = panel(&[&SHORT[..7], &[frames], more].concat());
            assert_eq!((status(&output), stdout(&output)), (2, String::new()), "{frames}");
            let said = format!("panel: '--frames {frames}': there is no memory for so many frames, seven bytes each\n");
            assert_eq!(stderr(&output), said);
        }
        assert_eq!(status(&load("17", frames)), 1);
    }
}

/// A load that somebody stops reading, and one that cannot be written.
#[test]
fn loads_that_nobody_takes() {
    let arguments = ["load", "examples/barrier/monitor.txt", "--seed", "1", "--threads", "16", "--frames", "20000"];
    let mut child = command().args(arguments).stdout(Stdio::piped()).stderr(Stdio::piped()).spawn().expect("the program runs");
    drop(child.stdout.take());
    let output = child.wait_with_output().expect("its end");
    assert_eq!((stderr(&output), status(&output)), (String::new(), 141));
    let Ok(full) = fs::OpenOptions::new().write(true).open("/dev/full") else { return };
    let output = command().args(arguments).stdout(full).stderr(Stdio::piped()).output().expect("the program runs");
    assert_eq!((stderr(&output), status(&output)), ("panel: standard output: No space left on device\n".into(), 2));
}

/// A load marks a class, and a page shows it like any trace.
#[test]
fn loads_elsewhere() {
    let class = Scratch::new();
    let load = panel(&WHOLE);
    let model = fs::read(root().join("examples/barrier/monitor.txt")).expect("the file");
    // A barrier that lets two of three go.
    let other = String::from_utf8(model.clone()).expect("ASCII").replace("leaving := 3", "leaving := 2");
    for (name, file) in [("same", &model[..]), ("other", other.as_bytes())] {
        class.put(&format!("{name}/monitor.txt"), file);
        class.put(&format!("{name}/trace-load.txt"), &load.stdout);
    }
    let output = panel(&["mark".as_ref(), class.path().as_os_str(), "--json".as_ref()]);
    let marked = Json::read(&stdout(&output));
    let of = |k: usize| marked.at("handins").list()[k].at("traces").list()[0].at("plain").numbers()[0];
    assert_eq!((status(&output), of(0), of(1)), (1, 14, 0));
    let page = |trace: &[u8]| {
        let trace = class.put("trace.txt", trace);
        let file = root().join("examples/barrier/monitor.txt");
        let output = panel(&["page".as_ref(), file.as_os_str(), trace.as_os_str(), "-o".as_ref(), "-".as_ref()]);
        assert_eq!(status(&output), 0);
        String::from_utf8(output.stdout).expect("a page")
    };
    assert!(page(&load.stdout).contains("In line on g00: 04, 00, 02.</span>"));
    let long = panel(&[&WHOLE[..7], &["300"]].concat());
    assert!(page(&long.stdout).contains("class=\"steps\"") && long.stdout.starts_with(&load.stdout));
}

/// Names and bytes that a terminal would obey are not shown.
#[test]
fn hard_names() {
    let scratch = Scratch::new();
    let hard = scratch.put("a\x1b[2J\nb.txt", BOX);
    let asked = ["--seed", "1", "--threads", "2", "--frames", "3"].map(std::ffi::OsStr::new);
    let to = scratch.path().join("-c\x1b[1m.txt");
    let output = panel(&[&["load".as_ref(), hard.as_os_str(), "-o".as_ref(), to.as_os_str()][..], &asked].concat());
    common::assert_tame(&output.stderr);
    assert!(status(&output) == 0 && to.is_file(), "{}", stderr(&output));
    let bad = scratch.put("bad\x07.txt", b"monitor \x1b[31m\xff { var");
    let output = panel(&[&["load".as_ref(), bad.as_os_str()][..], &asked].concat());
    common::assert_tame(&output.stderr);
    assert!(status(&output) == 1 && stderr(&output).contains("bad?.txt: refused, 2"), "{}", stderr(&output));
    let here = command().current_dir(scratch.path()).args(["load", "--", "-x.txt"]).args(asked).output().expect("the program runs");
    assert_eq!(status(&here), 2);
    // A name that begins like an option is told as a path.
    let quoted = |name: &str| panel::args::quoted(name.as_ref());
    let names = ["-", "-x", "a b", "it's", "", "examples/box/trace-load.txt", "$x", "*"].map(quoted);
    assert_eq!(names, ["-", "./-x", "'a b'", "'it'\\''s'", "''", "examples/box/trace-load.txt", "'$x'", "'*'"]);
}

/// Bytes that the line of patience is written to.
#[derive(Clone, Default)]
struct Bytes(Arc<Mutex<Vec<u8>>>);

impl Write for Bytes {
    fn write(&mut self, bytes: &[u8]) -> io::Result<usize> {
        self.0.lock().expect("the bytes").extend(bytes);
        Ok(bytes.len())
    }

    fn flush(&mut self) -> io::Result<()> {
        Ok(())
    }
}

/// A line tells of what takes long, and is gone behind it; of what is done at once there is none.
#[test]
fn patience() {
    let told = |time: u64| {
        let bytes = Bytes::default();
        let done = panel::patience::telling(bytes.clone(), "making 5 frames", || {
            std::thread::sleep(Duration::from_millis(time));
            17
        });
        assert_eq!(done, 17);
        let told = bytes.0.lock().expect("the bytes").clone();
        String::from_utf8(told).expect("ASCII")
    };
    assert_eq!(told(0), "");
    let long = told(1500);
    assert!(long.starts_with("\rmaking 5 frames, 0 s\rmaking 5 frames, ") && long.contains(", 1 s\r"), "{long:?}");
    assert!(long.ends_with("s\r\x1b[K") && long.matches('\x1b').count() == 1, "{long:?}");
}

/// The sessions of docs/GUIDE.md. With PANEL_GOLDEN=write they are written anew.
#[test]
fn loads_are_told_as_before() {
    let session = |arguments: &[&str]| {
        let output = command().env("COLUMNS", "80").args(arguments).output().expect("the program runs");
        format!("$ panel {}\n{}{}[{}]\n\n", arguments.join(" "), stdout(&output), stderr(&output), status(&output))
    };
    let mut said = session(&SHORT);
    said += &session(&[&SHORT[..], &["--run"]].concat());
    said += &session(&[&SHORT[..], &["--json"]].concat());
    said += &session(&["load", MONITOR, "--seed", "1", "--threads", "17", "--frames", "20"]);
    said += &session(&["load", MONITOR, "--seed", "1", "--threads", "17", "--frames", "20", "--json"]);
    said += &session(&["load", "examples/refusals/4-else-if/monitor.txt", "--seed", "1", "--threads", "3", "--frames", "20"]);
    said += &session(&["load", "examples/barrier/monitor.txt", "--seed", "2026", "--threads", "5", "--frames", "40"]);
    common::assert_tame(said.as_bytes());
    let golden = Path::new(env!("CARGO_MANIFEST_DIR")).join("tests/golden/load.txt");
    if std::env::var_os("PANEL_GOLDEN").is_some_and(|value| value == "write") {
        fs::write(&golden, &said).expect("written");
    }
    assert_eq!(fs::read_to_string(&golden).unwrap_or_default(), said, "another text than in tests/golden/load.txt");
}
