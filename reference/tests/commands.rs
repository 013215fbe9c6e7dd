//! The commands as they are called.

mod common;
use common::BOX;
use std::fs;
use std::io::Write;
use std::path::{Path, PathBuf};
use std::process::{Command, Stdio};

fn command(arguments: &[&str], input: &[u8]) -> String {
    let mut child = Command::new(env!("CARGO_BIN_EXE_reference"))
        .args(arguments)
        .stdin(Stdio::piped())
        .stdout(Stdio::piped())
        .spawn()
        .unwrap();
    child.stdin.take().unwrap().write_all(input).unwrap();
    let output = child.wait_with_output().unwrap();
    assert!(output.status.success());
    String::from_utf8(output.stdout).unwrap()
}

/// A new empty directory for one test.
fn directory(name: &str) -> PathBuf {
    let directory = Path::new(env!("CARGO_TARGET_TMPDIR")).join(name);
    let _ = fs::remove_dir_all(&directory);
    fs::create_dir_all(&directory).unwrap();
    directory
}

#[test]
fn placer_reads_standard_input() {
    assert_eq!(command(&["placer"], BOX.as_bytes()), "00010100\n01000100\n");
    assert_eq!(command(&["placer"], b""), "0400000000\n");
    assert_eq!(command(&["placer"], &[0xFF; 9000]), "0100000000\n");
}

#[test]
fn runner_reads_a_directory() {
    let at = directory("runner");
    let run = || command(&["runner", at.to_str().unwrap()], b"");
    // Missing files read as empty ones.
    assert_eq!(run(), "0400000000\n");
    fs::write(at.join("monitor.txt"), BOX).unwrap();
    assert_eq!(run(), format!("0080{}\n", "FF".repeat(16)).repeat(2));
    fs::write(at.join("trace.txt"), "000100\n010001\n").unwrap();
    assert_eq!(run(), format!("008101{}\n", "FF".repeat(15)).repeat(2));
    fs::write(at.join("trace.txt"), "000100\n010100\n020001\n030101\n010100\n").unwrap();
    assert_eq!(run(), format!("00800101{}\n0E00040000\n", "FF".repeat(14)));
    fs::remove_file(at.join("monitor.txt")).unwrap();
    assert_eq!(run(), "0400000000\n");
}

#[test]
fn points_read_a_directory() {
    let at = directory("points");
    let run = |name| command(&[name, at.to_str().unwrap()], b"");
    assert_eq!(run("points"), "0400000000\n".repeat(2));
    let kept = "000000C399\n0400000000\n000000F69F\n";
    assert_eq!(run("replay-points"), "0400000000\n".repeat(2) + kept);
    fs::write(at.join("monitor.txt"), BOX).unwrap();
    fs::write(at.join("trace.txt"), "000100\n").unwrap();
    let turns = "00".repeat(16);
    let point = |places| format!("808080808080{places}0100000000000100000000{turns}\n");
    let points = point("FF".repeat(16)) + &point("01".to_string() + &"FF".repeat(15));
    assert_eq!(run("points"), "0000000000\n".repeat(2) + &points);
    assert_eq!(run("replay-points").lines().nth(3), Some("0A00000000"));
    // A trace that is longer than `runner` reads is judged whole.
    let long = "000001\n000101\n".repeat(4682) + "zz";
    fs::write(at.join("trace.txt"), &long[..65548]).unwrap();
    assert_eq!(run("runner"), "0C24920000\n".repeat(2));
    let lines = run("points");
    assert!(lines.starts_with("0000000000\n0000000000\n80"));
    assert_eq!(lines.lines().count(), 2 + 9365);
    fs::write(at.join("trace.txt"), &long).unwrap();
    assert_eq!(run("points"), "0C24940000\n".repeat(2));
}

#[test]
fn tries_read_a_directory() {
    let at = directory("tries");
    let run = || command(&["replay-tries", at.to_str().unwrap()], b"");
    let put = |file: &str| fs::write(at.join("monitor.txt"), file).unwrap();
    assert_eq!(run(), "0400000000\n");
    put(BOX);
    assert_eq!(run(), "0000000000\n");
    let tries = "keep true; try full < 2; try full == 1; try full == 0; try true";
    put(&BOX.replace("keep true", tries));
    assert_eq!(run(), "0000090004\n0000000000\nFF00000000\n0100000000\n0000000000\n");
    put(&BOX.replace("keep true", tries).replace("full := 0", "full := 2"));
    assert_eq!(run(), "0900010001\n0000000000\nFF00000000\n0100000000\n0000000000\n");
    put(&BOX.replace("keep true", "keep full == 1; try true"));
    assert_eq!(run(), "0800240000\n");
    // Sixteen that fall one a pass: pass 10 has two digits, and so has the state.
    let tries: String = (1..=16).map(|value| format!("try x < {value};")).collect();
    put(&format!(
        "monitor m{{var x=0 in 0..16;keep true;{tries}method m{{waituntil(x<16){{x:=x+1;}}}}}}"
    ));
    let fates: String = (1..=16).map(|pass| format!("{pass:02X}0000{:04X}\n", pass - 1)).collect();
    assert_eq!(run(), format!("0000000010\n{fates}"));
}

#[test]
fn cases_made_for_tries_are_listed_and_written() {
    let list = command(&["tries-cases"], b"");
    let second = list.split("\n\n").nth(1).unwrap();
    assert!(second.starts_with("case 1: a chosen try empties the table\nfile: monitor m {"));
    let lines: Vec<&str> = second.lines().skip(2).collect();
    let line = "008000FFFFFFFFFFFFFFFFFFFFFFFFFFFFFF";
    let ran = format!("runner: {line} {line}");
    assert_eq!(
        lines,
        ["trace: 000000 010101", "chosen: 1", "fates: 0000000000", "placer: ", ran.as_str()]
    );
    let at = directory("made");
    command(&["tries-cases", at.to_str().unwrap()], b"");
    assert!(fs::read_dir(&at).unwrap().count() >= 60);
    let file = fs::read(at.join("00001/monitor.txt")).unwrap();
    assert_eq!(command(&["placer"], &file), "");
}

#[test]
fn pairs_read_a_directory() {
    let at = directory("pairs");
    let run = || command(&["replay-pairs", at.to_str().unwrap()], b"");
    let put = |file: &str| fs::write(at.join("monitor.txt"), file).unwrap();
    assert_eq!(run(), "0000000000\n");
    put(BOX);
    assert_eq!(run(), "0000040012\n");
    put(&BOX.replace("full := 1;", "if (false) { full := 9; }"));
    assert_eq!(run(), "0000040009\n");
    put(&BOX.replace("full := 0", "full := 2"));
    assert_eq!(run(), "0000000000\n");
}

#[test]
fn cases_counted_by_hand_are_listed_and_written() {
    let list = command(&["pairs-cases"], b"");
    let first = list.split("\n\n").next().unwrap();
    let line = format!("0080{}", "FF".repeat(16));
    let lines = [
        "case 0: Box",
        &format!("file: {BOX}"),
        "trace: 000100 010001 000101",
        "pairs: 4",
        "placer: 00010100 01000100",
        &format!("runner: {line} {line}"),
    ];
    assert_eq!(first.lines().collect::<Vec<&str>>(), lines);
    let at = directory("counted");
    command(&["pairs-cases", at.to_str().unwrap()], b"");
    assert!(fs::read_dir(&at).unwrap().count() >= 40);
    let file = fs::read(at.join("00000/monitor.txt")).unwrap();
    assert_eq!(file, BOX.as_bytes());
}

#[test]
fn cases_for_numbers_are_listed_and_written() {
    let list = command(&["numbers-cases"], b"");
    let first = list.split("\n\n").next().unwrap();
    let file = "monitor m { var a = 0 in 0..63; var b = 0 in 0..63; keep true; \
                method m0 { waituntil (true) { } } \
                method m1 { waituntil (a == 63 && b == 63) { a := 64; } } }";
    let lines = [
        "case 0: 4,095 of 64 by 64",
        &format!("file: {file}"),
        "states: 0 1 63 64 65 255 256 257 4031 4032 4094 4095",
        "told: 00008080 00018081 003F80BF 00408180 00418181 00FF83BF 01008480 01018481 \
         0FBFBEBF 0FC0BF80 0FFEBFBE 0FFFBFBF",
    ];
    assert_eq!(first.lines().collect::<Vec<&str>>(), lines);
    let at = directory("numbered");
    command(&["numbers-cases", at.to_str().unwrap()], b"");
    assert_eq!(fs::read_dir(&at).unwrap().count(), 82);
    assert_eq!(fs::read(at.join("00000/monitor.txt")).unwrap(), file.as_bytes());
    assert_eq!(fs::read(at.join("00000/placer.txt")).unwrap(), b"0900010FFF\n");
}

#[test]
fn cases_for_queues_are_listed_and_written() {
    let list = command(&["queue-cases"], b"");
    let blocks: Vec<&str> = list.split("\n\n").collect();
    let line = format!("008001{}", "FF".repeat(15));
    let turns = "00".repeat(16);
    let lines = [
        "case 0: example 4",
        &format!("file: {BOX}"),
        "trace: 010100 000100 020001 010101",
        "placer: 00010100 01000100",
        &format!("runner: {line} {line}"),
        &format!("turns: {turns} {turns}"),
    ];
    assert_eq!(blocks[0].lines().collect::<Vec<&str>>(), lines);
    // Of a refused run there are none.
    assert!(blocks[1].ends_with("runner: 0E00030000 0E00030000\nturns: - -"));
    // Threads 5, 1 and 0 wait, in this order.
    let four = blocks.iter().find(|block| block.contains("turns over both guards")).unwrap();
    let turns = format!("0201{}", "00".repeat(14));
    assert!(four.ends_with(&format!("\nturns: {turns} {turns}")));
    assert!(list.matches("\nturns: ").count() >= 14);
    let at = directory("queued");
    command(&["queue-cases", at.to_str().unwrap()], b"");
    assert_eq!(fs::read_dir(&at).unwrap().count(), 76);
    assert_eq!(fs::read(at.join("00000/monitor.txt")).unwrap(), BOX.as_bytes());
    assert_eq!(fs::read(at.join("00001/runner.txt")).unwrap(), b"0E00030000\n0E00030000\n");
}

#[test]
fn cases_for_remainders_are_listed_and_written() {
    let list = command(&["remainders-cases"], b"");
    let blocks: Vec<&str> = list.split("\n\n").collect();
    let line = format!("0081{}", "FF".repeat(16));
    let file = "monitor m { var x = 0 in 0..2; keep true; \
                method m0 { waituntil (true) { x := 7 mod 3; } } }";
    let lines = [
        "case 0: 7 mod 3",
        &format!("file: {file}"),
        "trace: 000001",
        "placer: ",
        &format!("runner: {line} {line}"),
        "tries: 0000000000",
        "pairs: 0000000000",
    ];
    assert_eq!(blocks[0].lines().collect::<Vec<&str>>(), lines);
    // `mod` is byte 38.
    let refused = blocks.iter().find(|block| block.contains(": keep by 0\n")).unwrap();
    assert!(refused.ends_with("runner: 0F00260000\ntries: 0F00260000\npairs: 0000000000"));
    assert!(list.matches("\nrunner: ").count() >= 16);
    let at = directory("divided");
    command(&["remainders-cases", at.to_str().unwrap()], b"");
    assert_eq!(fs::read_dir(&at).unwrap().count(), 150);
    assert_eq!(fs::read(at.join("00000/monitor.txt")).unwrap(), file.as_bytes());
}

#[test]
fn loads_are_made() {
    let load = |arguments: [&str; 3], file: &str| {
        let [seed, threads, wanted] = arguments;
        command(&["load", seed, threads, wanted], file.as_bytes())
    };
    assert_eq!(load(["4", "1", "2"], BOX), "0000000000\n2\n000001\n000101\n");
    assert_eq!(load(["4", "1", "9"], BOX), "0000000000\n3\n000001\n000101\n000100\n");
    assert_eq!(load(["4", "1", "0"], BOX), "0000000000\n0\n");
    assert_eq!(load(["4", "17", "2"], ""), "1000000000\n0\n");
    assert_eq!(load(["4", "1", "2"], ""), "0400000000\n0\n");
    assert_eq!(load(["4", "1", "18446744073709551615"], BOX), "0A00000000\n0\n");
}

#[test]
fn cases_for_loads_are_listed_and_written() {
    let list = command(&["load-cases"], b"");
    let blocks: Vec<&str> = list.split("\n\n").collect();
    let lines = [
        "case 0: seed 0, one thread",
        &format!("file: {BOX}"),
        "ask: 0 1 20 140",
        "load: 0000000000 2 000001 000000",
    ];
    assert_eq!(blocks[0].lines().collect::<Vec<&str>>(), lines);
    let refused = blocks.iter().find(|block| block.contains(": seventeen threads\n")).unwrap();
    assert!(refused.ends_with("ask: 0 17 3 21\nload: 1000000000 0"));
    assert!(list.matches("\nload: ").count() >= 24);
    let at = directory("loaded");
    command(&["load-cases", at.to_str().unwrap()], b"");
    assert_eq!(fs::read_dir(&at).unwrap().count(), 81);
    let first = at.join("00000");
    assert_eq!(fs::read(first.join("monitor.txt")).unwrap(), BOX.as_bytes());
    assert_eq!(fs::read(first.join("load.txt")).unwrap(), b"0 1 20 140\n");
    // The trace is the one that is made, and both machines accept it.
    assert_eq!(fs::read(first.join("trace.txt")).unwrap(), b"000001\n000000\n");
    let line = format!("008100{}\n", "FF".repeat(15));
    assert_eq!(fs::read(first.join("runner.txt")).unwrap(), line.repeat(2).into_bytes());
    // Two frames and 126 bytes of A5.
    let told = command(&["replay-load", first.to_str().unwrap()], b"");
    let bytes = [b"000001\n000000\n".to_vec(), vec![0xA5; 126]].concat();
    let sum = bytes.iter().fold(1u32, |sum, byte| (sum * 31 + u32::from(*byte)) % 65_521);
    assert_eq!(told, format!("0000000000\n000002{sum:04X}\n"));
}

#[test]
fn cases_hold_what_the_programs_print() {
    let at = directory("cases");
    command(&["cases", "1", "40", at.to_str().unwrap(), "small"], b"");
    for number in 0..40 {
        let case = at.join(format!("{number:05}"));
        let monitor = fs::read(case.join("monitor.txt")).unwrap();
        let placed = fs::read_to_string(case.join("placer.txt")).unwrap();
        assert_eq!(command(&["placer"], &monitor), placed);
        let ran = fs::read_to_string(case.join("runner.txt")).unwrap();
        assert_eq!(command(&["runner", case.to_str().unwrap()], b""), ran);
    }
    let tally = command(&["tally", at.to_str().unwrap()], b"");
    assert!(tally.starts_with("cases 40\n"));
}
