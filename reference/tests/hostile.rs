//! Hostile input: the same for the same seed, and everything in it; and that the
//! comparison finds what it looks for.

use std::fs;
use std::io;
use std::os::unix::fs::PermissionsExt;
use std::path::Path;

use reference::cases::asks::Ask;
use reference::cases::Case;
use reference::check;
use reference::frames::frames;
use reference::hostile::answers::Answers;
use reference::hostile::compare::{compare, Outcome, Plan};
use reference::hostile::loads::{self, given, Given, Program};
use reference::hostile::Bases;
use reference::lines::{placer, runner, MOST_TRACE_BYTES};
use reference::tokens::{tokens, Token};

#[test]
fn the_same_seed_gives_the_same_inputs() {
    let mut one = Bases::of(3);
    let mut other = Bases::of(3);
    // In whatever order they are asked for.
    let others: Vec<Case> = (0..60).rev().map(|number| other.input(number)).collect();
    for (number, other) in others.into_iter().rev().enumerate() {
        let one = one.input(number);
        assert_eq!((one.monitor, one.trace), (other.monitor, other.trace));
    }
}

/// Every answer that the programs can print comes in one of a hundred inputs.
#[test]
fn every_answer_occurs() {
    let mut bases = Bases::of(1);
    let mut answers = Answers::default();
    let count = 1_000;
    for number in 0..count {
        let input = bases.input(number);
        answers.add(&placer(&input.monitor), &runner(&input.monitor, &input.trace));
    }
    for number in (0..=9).chain([15]) {
        assert!(answers.placer[number] >= count / 100, "{number}\n{}", answers.text());
    }
    for number in (0..=9).chain(12..=15) {
        assert!(answers.plain[number] >= count / 100, "{number}\n{}", answers.text());
        assert!(answers.table[number] >= count / 100, "{number}\n{}", answers.text());
    }
}

/// Every limit is met by accepted input.
#[test]
fn every_limit_is_met() {
    let mut bases = Bases::of(2);
    let mut met = [0; 11];
    for number in 0..1_000 {
        let Case { monitor, trace } = bases.input(number);
        let Ok(checked) = check(&monitor) else { continue };
        let tokens = tokens(&monitor).unwrap();
        let count_of = |word: &str| tokens.iter().filter(|token| token.is(word)).count();
        let numbers = [
            monitor.len() == 8_192,
            tokens.len() == 1_024,
            deepest(&tokens) == 12,
            count_of("var") == 6,
            count_of("try") == 16,
            count_of("method") == 8,
            count_of("waituntil") == 16,
            checked.count_of_states() == 4_096,
            tokens.iter().any(|token| token.text.len() == 16),
            trace.len() > MOST_TRACE_BYTES,
            frames(&trace).is_ok_and(|frames| frames.len() == MOST_TRACE_BYTES / 7),
        ];
        for (met, is_met) in met.iter_mut().zip(numbers) {
            *met += usize::from(is_met);
        }
    }
    assert!(!met.contains(&0), "{met:?}");
}

fn deepest(tokens: &[Token]) -> usize {
    let mut depths = vec![0];
    for token in tokens {
        let depth = depths[depths.len() - 1];
        let opens = token.is("(") || token.is("{");
        let closes = token.is(")") || token.is("}");
        depths.push(depth + usize::from(opens) - usize::from(closes));
    }
    depths.into_iter().max().unwrap()
}

const REFERENCE: &str = env!("CARGO_BIN_EXE_reference");

/// Compares on forty inputs with programs that are these shell commands.
fn compared(name: &str, placer: &str, runner: &str) -> Outcome {
    let at = Path::new(env!("CARGO_TARGET_TMPDIR")).join(name);
    fs::create_dir_all(&at).unwrap();
    for (program, command) in [("placer", placer), ("runner", runner)] {
        let path = at.join(program);
        fs::write(&path, format!("#!/bin/sh\n{command}\n")).unwrap();
        fs::set_permissions(&path, fs::Permissions::from_mode(0o755)).unwrap();
    }
    let kept = at.join("kept");
    let _ = fs::remove_dir_all(&kept);
    let plan = Plan { seed: 4, count: 40, workers: 2, programs: at, kept, under: Vec::new() };
    let outcome = compare(&plan).unwrap();
    let kept = fs::read_dir(&plan.kept).map_or(0, |found| found.count());
    assert_eq!(kept > 0, outcome.differences + outcome.crashes > 0);
    outcome
}

/// One test, so that no program is written while another is started.
#[test]
fn differences_and_crashes_are_found() {
    let [placer, runner] = [format!("{REFERENCE} placer"), format!("{REFERENCE} runner .")];
    let found = |name: &str, placer: &str, runner: &str| {
        let outcome = compared(name, placer, runner);
        assert_eq!(outcome.answers.placer.iter().sum::<usize>(), 40);
        (outcome.differences, outcome.crashes)
    };
    assert_eq!(found("same", &placer, &runner), (0, 0));
    // A line too many, a wrong status, a signal, a word on standard error.
    assert_eq!(found("line", &placer, &format!("{runner}; echo")), (40, 0));
    assert_eq!(found("status", &format!("{placer}; exit 1"), &runner), (0, 40));
    assert_eq!(found("signal", &placer, &format!("{runner}; kill -SEGV $$")), (0, 40));
    assert_eq!(found("word", &placer, &format!("{runner}; echo word >&2")), (0, 40));
}

/// Loads of hostile files by a call, and how many of them differ.
fn loaded(name: &str, call: impl Fn(Given) -> io::Result<Given>) -> io::Result<usize> {
    let kept = Path::new(env!("CARGO_TARGET_TMPDIR")).join(name);
    let _ = fs::remove_dir_all(&kept);
    let outcome = loads::compare(6, 60, &kept, |file, ask| call(given(file, ask)));
    let found = fs::read_dir(&kept).map_or(0, |found| found.count());
    if let Ok(outcome) = &outcome {
        assert_eq!((outcome.loads, found > 0), (120, outcome.differences > 0));
        let accepted = outcome.answers[0];
        assert!(accepted > 15 && outcome.answers[10] > 3 && outcome.answers[16] > 3);
        assert!(outcome.frames > 200 && outcome.short > 3);
    }
    outcome.map(|outcome| outcome.differences)
}

#[test]
fn loads_that_differ_are_found() {
    assert_eq!(loaded("loads-same", Ok).unwrap(), 0);
    // Another count, another place, another byte of those that are kept.
    let counted = |given: Given| Ok(Given { count: given.count + 1, ..given });
    assert_eq!(loaded("loads-count", counted).unwrap(), 120);
    let placed = |given: Given| Ok(Given { answer: (given.answer.0, 0, 0), ..given });
    assert!((10..100).contains(&loaded("loads-place", placed).unwrap()));
    let cleared = |mut given: Given| {
        given.buffer.iter_mut().filter(|byte| **byte == 0xA5).for_each(|byte| *byte = 0);
        Ok(given)
    };
    assert!((30..120).contains(&loaded("loads-kept", cleared).unwrap()));
    assert!(loaded("loads-end", |_| Err(io::Error::other("ended"))).is_err());
}

#[test]
fn a_program_goes_between() {
    let ask = Ask { seed: 4, threads: 1, wanted: 1, room: 2 };
    // It reads 28 bytes and a file of three, and answers 10 with both bytes kept.
    let answer = "\\012".to_string() + &"\\000".repeat(24) + "\\245\\245";
    let script = format!("head -c 31 > /dev/null; printf '{answer}'; cat");
    let mut program = Program::started(&["sh", "-c", &script]).unwrap();
    let given = program.ask(b"mon", ask).unwrap();
    assert_eq!(given, Given { answer: (10, 0, 0), count: 0, buffer: vec![0xA5; 2] });
    assert!(program.end().unwrap());
    // One that says less, says more, or ends otherwise.
    let mut less = Program::started(&["sh", "-c", "head -c 31 > /dev/null"]).unwrap();
    assert!(less.ask(b"mon", ask).is_err());
    assert!(!Program::started(&["echo"]).unwrap().end().unwrap());
    assert!(!Program::started(&["false"]).unwrap().end().unwrap());
    assert!(Program::started(&[]).is_err());
}
