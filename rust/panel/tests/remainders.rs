//! Remainders: 15 in words, for tools, for a class and on the page; and the faults of bodies that take them.
mod common;
use common::{command, panel, root, status, stderr, stdout, Json, Scratch, BOX};

fn example(name: &str) -> String {
    root().join("examples").join(name).to_str().expect("ASCII").to_string()
}

/// Blanks as one.
fn one_line(text: &str) -> String {
    text.split_whitespace().collect::<Vec<_>>().join(" ")
}

#[test]
fn a_refusal_in_words() {
    for command in ["check", "place", "show"] {
        let output = panel(&[command, &example("refusals/15-tested-beside/monitor.txt")]);
        common::assert_tame(&output.stdout);
        assert_eq!((status(&output), stderr(&output)), (1, String::new()));
        let text = stdout(&output);
        assert!(text.contains("line 6, column 43 (byte 211):\n"), "{text}");
        assert!(text.contains("seq mod step == 0) { } }\n    |                                           ^^^\n"), "{text}");
        let text = one_line(&text);
        assert!(text.contains("refused, 15: a remainder that has no value in some state"), "{text}");
        assert!(text.contains("The divisor 'step' can be 0 ('var step = 1 in 0..3;')."), "{text}");
        assert!(text.contains("What to do: Give 'step' a range from 1 on"), "{text}");
        assert!(!text.contains("Tries:"), "{text}");
    }
    // Nothing is told of the tries beside it.
    let text = stdout(&panel(&["check", &example("refusals/15-in-try/monitor.txt")]));
    assert!(one_line(&text).contains("this 'try', be it chosen or not, must have a value") && !text.contains("Tries:"), "{text}");
    // A trace does not matter then.
    let scratch = Scratch::new();
    let trace = scratch.put("trace.txt", b"no frame");
    let output = panel(&["run", &example("refusals/15-in-try/monitor.txt"), trace.to_str().expect("ASCII")]);
    assert!(stdout(&output).contains("refused, 15: ") && status(&output) == 1, "{}", stdout(&output));
}

#[test]
fn a_refusal_for_tools() {
    let file = example("refusals/15-tested-beside/monitor.txt");
    for arguments in [["check", &file, "--json"], ["place", &file, "--json"], ["show", &file, "--json"]] {
        let output = panel(&arguments);
        assert_eq!(status(&output), 1);
        let object = Json::read(&stdout(&output));
        assert_eq!(object.keys(), ["answer"], "{arguments:?}");
        assert_eq!(object.at("answer").numbers(), [15, 211, 0]);
    }
}

#[test]
fn a_refusal_in_a_class() {
    let class = Scratch::new();
    class.put("anna/monitor.txt", BOX);
    class.put("ben/monitor.txt", &std::fs::read(example("refusals/15-tested-beside/monitor.txt")).expect("the file"));
    class.put("ben/trace.txt", b"000001\n");
    let mark = |option: Option<&str>| command().env("COLUMNS", "100").arg("mark").arg(class.path()).args(option).output().expect("it runs");
    let output = mark(None);
    assert_eq!(status(&output), 1);
    let text = one_line(&stdout(&output));
    assert!(text.contains("ben refused 15: a remainder that has no value in some state (byte 211)"), "{text}");
    assert!(stdout(&mark(Some("--csv"))).contains("ben,refused,15,211,0,,"));
    let object = Json::read(&stdout(&mark(Some("--json"))));
    assert_eq!(object.at("handins").list()[1].at("answer").numbers(), [15, 211, 0]);
}

#[test]
fn a_refusal_on_the_page() {
    let file = example("refusals/15-tested-beside/monitor.txt");
    let output = panel(&["page", &file, "-o", "-"]);
    assert_eq!(status(&output), 1);
    let html = String::from_utf8(output.stdout).expect("UTF-8");
    assert!(html.contains("<b>Refused.</b> 15: a remainder that has no value in some state."));
    assert!(html.contains("<a href=\"#refused\">line 6, column 43</a>, byte 211"));
    assert!(html.contains("seq <span class=\"refused\" id=\"refused\">m</span>od step"));
}

/// A body that faults: the library does not say by what; where no divisor of the body can be below 1, it is a range.
#[test]
fn faults_in_words() {
    let told = |name: &str| one_line(&stdout(&panel(&["check", &example(name)])));
    let both = told("refusals/9-no-remainder/monitor.txt");
    assert!(both.contains("refused, 9: a body that assigns outside a range or takes a remainder by less than 1"), "{both}");
    assert!(both.contains("or takes a remainder by 'step', which has no value where the divisor is below 1."), "{both}");
    assert!(both.contains("test a divisor in an 'if' around the remainder"), "{both}");
    let range = told("refusals/9-mod-binds/monitor.txt");
    assert!(range.contains("refused, 9: a body that assigns outside a range line"), "{range}");
    assert!(range.contains("'mod' binds closer than '+' and '-'"), "{range}");
    for name in ["9-midway", "9-not-reached", "9-weak-try"] {
        let text = told(&format!("refusals/{name}/monitor.txt"));
        assert!(text.contains("assigns outside a range.") && !text.contains("remainder") && !text.contains("mod"), "{text}");
    }
}

/// The example over the wrap, on both machines.
#[test]
fn numbers_come_round() {
    let output = panel(&["run", &example("breaker-round/monitor.txt"), &example("breaker-round/trace.txt")]);
    assert_eq!(status(&output), 0);
    let text = one_line(&stdout(&output));
    assert!(text.contains("Thread 00 enters send: sent == seq holds, the body runs, sent becomes 0."), "{text}");
    assert!(text.contains("Thread 01 enters fresh: sent != seq holds, the body runs, seq becomes 0."), "{text}");
    assert!(text.contains("Frame 9 020201 Thread 02 enters late: true holds, the body runs, no value changes."), "{text}");
    assert!(text.contains("Thread 03 enters show: lamp != seq mod 2 does not hold, it waits."), "{text}");
}
