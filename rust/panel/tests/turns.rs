//! Who waits, in order: in words, for tools, on the page and in the helps.
mod common;
use common::{command, panel, root, status, stdout, Json, Scratch, BOX};

fn told(file: &[u8], trace: &str, more: &[&str]) -> String {
    let scratch = Scratch::new();
    let (file, trace) = (scratch.put("monitor.txt", file), scratch.put("trace.txt", trace.as_bytes()));
    let arguments = ["run".as_ref(), file.as_os_str(), trace.as_os_str()];
    let output = command().env("COLUMNS", "140").args(arguments).args(more).output().expect("the program runs");
    assert!(matches!(status(&output), 0 | 1));
    stdout(&output)
}

fn breaker() -> Vec<u8> {
    std::fs::read(root().join("examples/breaker/monitor.txt")).expect("the file")
}

/// Frames on the breaker's file: three receivers at two regions with one guard, and the panel between them.
const SHARED: &str = "000001\n020100\n030400\n000000\n010100\n0F0300\n";

#[test]
fn lines_in_words() {
    let said = told(BOX, "050100\n000100\n020001\n050101\n", &[]);
    for line in [
        "  both   full = 0 | waiting: none | notified: none\n",
        "  both   full = 0 | waiting on guard 01: 05 at get | notified: none\n",
        "  both   full = 0 | waiting on guard 01: 05 00 at get | notified: none\n",
        "  both   full = 1 | waiting on guard 01: 05 00 at get\n  plain  notified: +00 +05\n  table  notified: +05\n",
        "  both   full = 0 | waiting on guard 01: 00 at get\n  plain  notified: 00\n  table  notified: none\n",
    ] {
        assert!(said.contains(line), "{line} in {said}");
    }
    // Regions that share a guard share its line; each guard has its own.
    let said = told(&breaker(), &SHARED[..7 * 5], &[]).split_whitespace().collect::<Vec<_>>().join(" ");
    let lines = "| waiting on guard 00: 02 at open2, 00 at closed1, 01 at open2; guard 02: 03 at show | notified: none Answers";
    assert!(said.contains(lines), "{said}");
    // A recheck keeps its place, and who comes again goes to the back.
    let said = told(BOX, "050100\n000100\n020001\n030101\n050100\n020001\n050101\n050100\n", &[]);
    let lines: Vec<&str> = said.lines().filter_map(|line| Some(line.split("guard 01: ").nth(1)?.split(" at").next().unwrap())).collect();
    assert_eq!(lines, ["05", "05 00", "05 00", "05 00", "05 00", "05 00", "00", "00 05"], "{said}");
}

/// Null exactly where a thread does not wait, in the record of each machine and at every point.
#[test]
fn turns_for_tools() {
    let turns = |object: &Json| -> Vec<(usize, i64)> {
        let all = object.at("turns").list();
        assert_eq!(all.len(), 16);
        let waits: Vec<bool> = object.at("places").numbers().iter().map(|place| *place < 16).collect();
        assert!(all.iter().zip(waits).all(|(turn, waits)| (*turn != Json::Null) == waits), "{object:?}");
        all.iter().enumerate().filter(|(_, turn)| **turn != Json::Null).map(|(thread, turn)| (thread, turn.number())).collect()
    };
    // Thread 15 finds the guard of region 3 true, so its frame is refused and left out.
    let run = Json::read(&told(&breaker(), &SHARED[..7 * 5], &["--json", "--points"]));
    let end = vec![(0, 2), (1, 3), (2, 0), (3, 1)];
    for machine in ["plain", "table"] {
        assert_eq!(run.at(machine).keys(), ["answer", "values", "places", "turns", "notified"]);
        assert_eq!(turns(run.at(machine)), end);
    }
    let points = run.at("points").list();
    assert!(points.iter().all(|point| point.keys() == ["values", "places", "turns", "guards", "plain", "table"]));
    let by_hand = [vec![], vec![], vec![(2, 0)], vec![(2, 0), (3, 1)], vec![(0, 2), (2, 0), (3, 1)], end];
    assert_eq!(points.iter().map(turns).collect::<Vec<_>>(), by_hand);
    let refused = Json::read(&told(&breaker(), SHARED, &["--json"]));
    assert_eq!((refused.at("plain").keys(), refused.at("table").keys()), (vec!["answer"], vec!["answer"]));
    let run = Json::read(&told(BOX, "050100\n000100\n020001\n050101\n", &["--json"]));
    assert_eq!(turns(run.at("table")), [(0, 0)]);
}

/// The page has lines, their key and their sentences only where somebody waits.
#[test]
fn a_page_without_waiters_has_no_lines() {
    let scratch = Scratch::new();
    let page = |trace: &str| {
        let (file, trace) = (scratch.put("monitor.txt", BOX), scratch.put("trace.txt", trace.as_bytes()));
        let output = panel(&["page".as_ref(), file.as_os_str(), trace.as_os_str(), "-o".as_ref(), "-".as_ref()]);
        String::from_utf8(output.stdout).expect("a page")
    };
    let marks = ["class=\"stands", "class=\"tail\"", "class=\"stood\"", "guards, and who waits", "In line on", "in line</dt>"];
    let none = page("000001\n010101\n000001\n");
    for mark in marks {
        assert!(!none.contains(mark), "{mark}");
    }
    assert!(none.contains("guards that hold"));
    let some = page("050100\n000100\n");
    for mark in marks {
        assert!(some.contains(mark), "{mark}");
    }
    assert!(some.contains("it waits. In line on g01: 05, 00.</span>"));
    assert!(some.contains("<dt>in line</dt><dd>g01: 05, 00</dd>") && some.contains("aria-label=\"line on g01: 05, 00\""));
    let gone = page("050100\n020001\n050101\n");
    assert!(gone.contains("full becomes 0. In line on g01: nobody.</span>") && !gone.contains("in line</dt>"));
}

/// The helps say who goes first.
#[test]
fn helps_say_who_goes_first() {
    for name in ["place", "run"] {
        let output = command().args([name, "--help"]).output().expect("the program runs");
        let help = stdout(&output).split_whitespace().collect::<Vec<_>>().join(" ");
        assert!(help.contains("began to wait earliest"), "{help}");
    }
}
