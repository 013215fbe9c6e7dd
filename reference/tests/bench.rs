//! The ten bench examples of document 01, starred or not.

mod common;
use common::{answer, both_answers, byte_of, file, regions, table, trace, BOX};
use reference::lines::runner;

fn runner_lines(file: &str, frames: &str) -> String {
    String::from_utf8(runner(file.as_bytes(), &trace(frames))).unwrap()
}

#[test]
fn example_1_table_of_box() {
    assert_eq!(table(BOX), "00010100\n01000100\n");
}

#[test]
fn example_2_a_get_that_waits() {
    let line = "0080FFFFFFFFFFFFFFFFFFFFFFFFFFFFFFFF\n";
    assert_eq!(runner_lines(BOX, "000100 010001 000101"), line.repeat(2));
}

#[test]
fn example_3_not_notified() {
    assert_eq!(both_answers(BOX, "000100 000101"), [(14, 1); 2]);
    assert_eq!(both_answers(BOX, "000100 000100"), [(14, 1); 2]);
    assert_eq!(runner_lines(BOX, "000100 000101"), "0E00010000\n".repeat(2));
}

/// Both accept, and end with full at 0 and thread 0 waiting at region 1.
#[test]
fn example_4_the_earlier_waiter_goes_first() {
    assert_eq!(both_answers(BOX, "010100 000100 020001 010101"), [(0, 0); 2]);
    let line = "008001FFFFFFFFFFFFFFFFFFFFFFFFFFFFFF\n";
    assert_eq!(runner_lines(BOX, "010100 000100 020001 010101"), line.repeat(2));
    // The other one is refused, though its number is lower.
    assert_eq!(runner_lines(BOX, "010100 000100 020001 000101"), "0E00030000\n".repeat(2));
}

#[test]
fn example_5_a_recheck() {
    assert_eq!(both_answers(BOX, "000100 010001 020101 000100"), [(0, 0); 2]);
}

#[test]
fn example_6_the_machines_part() {
    assert_eq!(both_answers(BOX, "000100 010100 020001 030101 010100"), [(0, 0), (14, 4)]);
}

#[test]
fn example_7_readers_and_writer() {
    let readers = file(
        "var readers = 0 in 0..3; var writer = 0 in 0..1;",
        "true",
        "method a { waituntil (writer == 0 && readers < 3) { readers := readers + 1; } }
         method b { waituntil (true) { if (readers > 0) { readers := readers - 1; } } }
         method c { waituntil (readers == 0 && writer == 0) { writer := 1; } }
         method d { waituntil (true) { writer := 0; } }",
    );
    assert_eq!(table(&readers), "01000001\n01020000\n03000001\n03020000\n");
}

#[test]
fn example_8_the_kept_condition_counts() {
    let with_keep = |keep| {
        regions(keep, &["waituntil (x == 3) { }", "waituntil (true) { if (x == 2) { x := 3; } }"])
    };
    assert_eq!(table(&with_keep("x < 2")), "");
    assert_eq!(table(&with_keep("true")), "01000001\n");
}

#[test]
fn example_9_a_body_leaves_its_range() {
    let leaving =
        file("var x = 0 in 0..1;", "true", "method m { waituntil (true) { x := x + 1; } }");
    assert_eq!(answer(leaving), (9, 0, 1));
}

#[test]
fn example_10_the_rest() {
    assert_eq!(answer(""), (4, 0, 0));
    assert_eq!(answer("monitor m"), (4, 9, 0));
    assert_eq!(answer(BOX.to_string() + &" ".repeat(8193 - BOX.len())), (1, 0, 0));
    let unkept = BOX.replace("keep true", "keep full == 1");
    assert_eq!(answer(&unkept), (8, byte_of(&unkept, "keep"), 0));
    let states = file(
        "var x = 0 in 0..63; var y = 0 in 0..63;",
        "true",
        "method m { waituntil (true) { } }",
    );
    assert_eq!(answer(states), (0, 0, 0));
}

#[test]
fn lines_of_refusals_and_of_empty_files() {
    assert_eq!(table(""), "0400000000\n");
    assert_eq!(runner_lines("", "000000"), "0400000000\n");
    assert_eq!(runner_lines("monitor m", "zz"), "0400090000\n");
    // Two variables from -128 and 127; thread 1 waits at 0, thread 0 is due at 2.
    let shown = file(
        "var low = -128 in -128..-127; var high = 127 in 126..127;",
        "true",
        "method a { waituntil (low == -127) { } } \
         method b { waituntil (true) { } waituntil (true) { } }",
    );
    let line = format!("0000FF1200{}\n", "FF".repeat(14));
    assert_eq!(runner_lines(&shown, "010000 000101"), line.repeat(2));
}
