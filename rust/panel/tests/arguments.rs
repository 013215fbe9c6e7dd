//! Arguments, files that cannot be read, help and exit statuses.
mod common;
use common::{command, panel, panel_reading, root, status, stderr, stdout, Scratch, BOX};
use std::process::Stdio;

const MONITOR: &str = "examples/box/monitor.txt";
const TRACE: &str = "examples/box/trace.txt";
const COMMANDS: [&str; 7] = ["show", "check", "place", "run", "page", "load", "mark"];

/// Arguments that are wrong: the exit status is 2, nothing is on standard output, and standard error says what and where help is.
fn wrong(arguments: &[&str], what: &str) {
    let output = panel(arguments);
    let said = stderr(&output);
    assert_eq!(status(&output), 2, "{arguments:?}: {said}");
    assert_eq!(stdout(&output), "", "{arguments:?}");
    assert!(said.starts_with("panel: ") && said.contains(what), "{arguments:?}: {said}");
    assert!(said.contains("see 'panel "), "{arguments:?}: {said}");
}

/// A file that cannot be read or written: the system's words.
fn fails(arguments: &[&str], what: &str) {
    let output = panel(arguments);
    assert_eq!(stderr(&output), format!("panel: {what}\n"), "{arguments:?}");
    assert_eq!(status(&output), 2, "{arguments:?}");
    assert_eq!(stdout(&output), "", "{arguments:?}");
}

#[test]
fn help_is_everywhere() {
    let whole = panel(&["--help"]);
    assert_eq!(status(&whole), 0);
    for command in COMMANDS {
        assert!(stdout(&whole).contains(&format!("  {command} ")), "{command}");
        let one = panel(&[command, "--help"]);
        assert_eq!(status(&one), 0);
        assert!(stdout(&one).contains(&format!("Usage: panel {command} ")), "{command}");
        assert_eq!(stdout(&panel(&["help", command])), stdout(&one));
        assert_eq!(stdout(&panel(&[command, "no-such-file", "-h"])), stdout(&one));
        assert!(stdout(&one).lines().all(|line| line.len() <= 60), "{command}");
    }
    assert!(stdout(&whole).lines().all(|line| line.len() <= 60));
    assert_eq!(stdout(&panel(&["help"])), stdout(&whole));
    assert_eq!(stdout(&panel(&["--version"])), format!("panel {}\n", env!("CARGO_PKG_VERSION")));
    let none: [&str; 0] = [];
    let nothing = panel(&none);
    assert_eq!((status(&nothing), stdout(&nothing)), (2, stdout(&whole)));
}

/// Every option that a help names is taken, and the other way round.
#[test]
fn helps_name_the_options() {
    for command in COMMANDS {
        let help = stdout(&panel(&["help", command]));
        for option in ["json", "points", "start", "frames", "color", "output", "csv", "seed", "threads", "run"] {
            let named = help.contains(&format!("  --{option}")) || help.contains(&format!(", --{option} "));
            let said = stderr(&panel(&[command, &format!("--{option}=x"), "a", "b", "c"]));
            assert_eq!(named, !said.contains("unknown option"), "{command} --{option}: {said}");
        }
    }
}

#[test]
fn wrong_arguments_are_named() {
    wrong(&["chekc", MONITOR], "'chekc' is no command and no folder; did you mean 'check'?");
    wrong(&["examples/none"], "'examples/none' is no command and no folder");
    wrong(&[MONITOR], "did you mean 'panel show examples/box/monitor.txt'?");
    wrong(&["help", "me"], "'me' is no command");
    wrong(&["check"], "an argument is missing: panel check FILE");
    wrong(&["run", MONITOR], "an argument is missing: panel run FILE TRACE");
    wrong(&["check", MONITOR, TRACE], "'examples/box/trace.txt' is an argument too many");
    wrong(&["check", "--jsn", MONITOR], "unknown option '--jsn'; did you mean '--json'?");
    wrong(&["run", MONITOR, TRACE, "--begin", "3"], "unknown option '--begin'");
    wrong(&["check", "-x", MONITOR], "unknown option '-x'");
    wrong(&["check", "-\x1b[31m", MONITOR], "unknown option '-?[31m'");
    wrong(&["--wat"], "unknown option '--wat'");
    wrong(&["check", "--json=yes", MONITOR], "option '--json' takes no value");
    wrong(&["run", MONITOR, TRACE, "--start"], "option '--start' needs a value");
    wrong(&["run", MONITOR, TRACE, "--start", "x"], "'--start x'");
    wrong(&["run", MONITOR, TRACE, "--start", "-1"], "'--start -1'");
    wrong(&["run", MONITOR, TRACE, "--start", "99999999999999999999999"], "'--start 9");
    wrong(&["run", MONITOR, TRACE, "--start", "empty=1"], "no variable 'empty'; there are full");
    wrong(&["run", MONITOR, TRACE, "--start", "full=7"], "full = 7 is no state; full is in 0..1");
    wrong(&["run", MONITOR, TRACE, "--start", "full=99999"], "'--start full=99999'");
    wrong(&["run", MONITOR, TRACE, "--frames", "3..1"], "'--frames 3..1'");
    wrong(&["run", MONITOR, TRACE, "--frames", "a"], "'--frames a'");
    wrong(&["run", MONITOR, TRACE, "--points"], "'--points' goes with '--json'");
    wrong(&["run", MONITOR, TRACE, "--json", "--frames", "1"], "'--frames' does not go with '--json'");
    wrong(&["mark", "examples", "--csv", "--json"], "'--csv' does not go with '--json'");
    wrong(&["check", MONITOR, "--color", "blue"], "'--color' is auto, always or never");
    wrong(&["run", "-", "-"], "standard input cannot be both file and trace");
    wrong(&["page", MONITOR], "'-o OUT.html' is missing");
    wrong(&["page", MONITOR, "-o", MONITOR], "would be written over");
    wrong(&["page", "examples/box", "-o", "examples/../examples/box/trace.txt"], "would be written over");
    wrong(&["show", "examples/box", TRACE], "is an argument too many");
}

#[test]
fn files_that_cannot_be_read_are_named() {
    fails(&["check", "none.txt"], "none.txt: No such file or directory");
    fails(&["place", "examples/box"], "examples/box: Is a directory");
    fails(&["run", MONITOR, "none.txt"], "none.txt: No such file or directory");
    fails(&["run", MONITOR, "examples"], "examples: Is a directory");
    fails(&["run", "examples", TRACE], "examples: Is a directory");
    fails(&["check", "examples/box/monitor.txt/x"], "examples/box/monitor.txt/x: Not a directory");
    fails(&["check", ""], ": No such file or directory");
    fails(&["check", "--", "--json"], "--json: No such file or directory");
    fails(&["show", "examples"], "examples/monitor.txt: No such file or directory");
    fails(&["examples"], "examples/monitor.txt: No such file or directory");
    fails(&["mark", "none"], "none: No such file or directory");
    fails(&["mark", MONITOR], "examples/box/monitor.txt: Not a directory");
    fails(&["mark", "docs"], "docs: no folder here has a monitor.txt");
    fails(&["page", MONITOR, "-o", "none/x.html"], "none/x.html: No such file or directory");
    fails(&["page", MONITOR, "-o", "examples"], "examples: Is a directory");
    fails(&["check", "a\x1b[2Jb\nc"], "a?[2Jb?c: No such file or directory");
}

/// A trace that is there and cannot be read is not taken for one that is missing.
#[test]
fn a_broken_trace_is_no_missing_one() {
    let scratch = Scratch::new();
    scratch.put("monitor.txt", BOX);
    assert_eq!(status(&panel(&[scratch.path()])), 0);
    std::os::unix::fs::symlink("nowhere", scratch.path().join("trace.txt")).expect("a link");
    let output = panel(&[scratch.path()]);
    assert_eq!(status(&output), 2);
    assert!(stderr(&output).ends_with("trace.txt: No such file or directory\n"));
}

#[test]
fn options_stand_anywhere() {
    let usual = stdout(&panel(&["run", MONITOR, TRACE, "--json", "--start", "0"]));
    for arguments in [
        ["run", "--json", "--start=0", MONITOR, TRACE].to_vec(),
        ["run", MONITOR, "--start", "0", "--json", TRACE].to_vec(),
        ["run", "--start", "full=0", "--json", "--", MONITOR, TRACE].to_vec(),
        ["run", "--start=1", "--start=0", "--json", MONITOR, TRACE].to_vec(),
    ] {
        assert_eq!(stdout(&panel(&arguments)), usual, "{arguments:?}");
    }
    let shown = panel(&["examples/box"]);
    assert_eq!(status(&shown), 0);
    assert_eq!(stdout(&panel(&["--color", "never", "examples/box"])), stdout(&shown));
    assert_eq!(stdout(&panel(&["show", "examples/box"])), stdout(&shown));
    assert_eq!(stdout(&panel(&["show", MONITOR, TRACE])), stdout(&shown));
}

#[test]
fn exit_statuses() {
    for (arguments, expected) in [
        (["check", MONITOR].to_vec(), 0),
        (["check", "examples/refusals/4-else-if/monitor.txt"].to_vec(), 1),
        (["place", MONITOR].to_vec(), 0),
        (["place", "examples/refusals/9-midway/monitor.txt"].to_vec(), 1),
        (["run", MONITOR, TRACE].to_vec(), 0),
        (["run", MONITOR, TRACE, "--start", "5"].to_vec(), 1),
        (["run", MONITOR, MONITOR].to_vec(), 1),
        (["run", MONITOR, "examples/box/trace-plain-only.txt"].to_vec(), 1),
        (["examples/refusals/13-due"].to_vec(), 1),
        (["examples/refusals/2-comment"].to_vec(), 1),
    ] {
        for more in [&[][..], &["--json"]] {
            let output = panel(&[&arguments[..], more].concat());
            assert_eq!((status(&output), stderr(&output)), (expected, String::new()), "{arguments:?} {more:?}");
        }
    }
}

#[test]
fn standard_input() {
    let trace = std::fs::read(root().join(TRACE)).expect("the trace");
    let said = |output: std::process::Output| (status(&output), stdout(&output));
    let named = |text: &str, name: &str| text.replace(name, "standard input");
    let (code, text) = said(panel(&["check", MONITOR]));
    assert_eq!(said(panel_reading(&["check", "-"], BOX)), (code, named(&text, MONITOR)));
    let (code, text) = said(panel(&["run", MONITOR, TRACE]));
    assert_eq!(said(panel_reading(&["run", MONITOR, "-"], &trace)), (code, named(&text, TRACE)));
    let (code, text) = said(panel(&["show", MONITOR, TRACE]));
    assert_eq!(said(panel_reading(&["show", "-", TRACE], BOX)), (code, named(&text, MONITOR)));
    let (code, text) = said(panel_reading(&["check", "-"], b""));
    assert_eq!(code, 1);
    assert!(text.contains("4: the file is empty"), "{text}");
}

#[test]
fn frames_are_told_in_part() {
    let all = stdout(&panel(&["run", MONITOR, "examples/box/trace-plain-only.txt"]));
    let part = |range: &str| stdout(&panel(&["run", MONITOR, "examples/box/trace-plain-only.txt", "--frames", range]));
    let count = |text: &str| text.matches("\nFrame ").count();
    assert_eq!(count(&all), 5);
    assert_eq!(part("0.."), all);
    assert_eq!(part("..99"), all);
    assert_eq!(count(&part("1..3")), 3);
    assert_eq!(count(&part("4")), 1);
    assert!(part("4").contains("Before frame 4\n") && part("4").contains("the machines part"));
    assert_eq!(count(&part("7")), 0);
    assert!(part("7").contains("no frame from 7 on"), "{}", part("7"));
    assert!(part("7").contains("The machines part at frame 4"));
}

/// Nobody reads: the program ends, and says nothing. What cannot be written is told.
#[test]
fn closed_and_full_outputs() {
    let scratch = Scratch::new();
    let long = scratch.put("trace.txt", &b"010001\n000101\n".repeat(9000));
    for arguments in [vec!["run", MONITOR, long.to_str().unwrap()], vec!["run", "--json", "--points", MONITOR, long.to_str().unwrap()]] {
        let mut child = command().args(&arguments).stdout(Stdio::piped()).stderr(Stdio::piped()).spawn().expect("the program runs");
        drop(child.stdout.take());
        let output = child.wait_with_output().expect("its end");
        assert_eq!((stderr(&output), status(&output)), (String::new(), 141), "{arguments:?}");
    }
    let Ok(full) = std::fs::OpenOptions::new().write(true).open("/dev/full") else { return };
    for arguments in [vec!["check", MONITOR], vec!["--help"], vec!["examples/box", "--json"], vec!["page", MONITOR, "-o", "-"]] {
        let to = full.try_clone().expect("another handle");
        let output = command().args(&arguments).stdout(to).stderr(Stdio::piped()).output().expect("the program runs");
        assert_eq!(stderr(&output), "panel: standard output: No space left on device\n", "{arguments:?}");
        assert_eq!(status(&output), 2);
    }
}

/// It runs from any folder, with paths from there.
#[test]
fn from_another_folder() {
    let output = command().current_dir(root().join("examples/box")).args(["show", "monitor.txt"]).output().expect("the program runs");
    assert!(stdout(&output).starts_with("monitor.txt: accepted\n"));
    let output = command().current_dir(root().join("examples/box")).arg(".").output().expect("the program runs");
    assert!(stdout(&output).starts_with("./monitor.txt: accepted\n"));
}
