//! The four slips seen in marking, each where the slip would answer otherwise.

mod common;
use common::{answer, both, both_answers, regions, table, BOX};

#[test]
fn the_resumed_thread_is_no_waiter_any_more() {
    let pool = regions(
        "true",
        &["waituntil (x > 0) { x := x - 1; }", "waituntil (x < 2) { x := x + 2; }"],
    );
    // Thread 3 waits, two are put in, thread 3 takes one. One is left, so its guard
    // still holds: counted as a waiter, it would be notified again.
    let resumed = "030000 010101 030001";
    for record in both(&pool, resumed) {
        let record = record.unwrap();
        assert_eq!((record.notified_bits(), record.how_many()), (0, 0));
    }
    // Thread 4 takes the last one and thread 3 waits anew. With a notice left over
    // it could recheck.
    assert_eq!(both_answers(&pool, &format!("{resumed} 040001 030000 030000")), [(14, 5); 2]);
}

#[test]
fn a_signal_asks_every_region_that_has_the_guard() {
    // Region 0 leaves `x == 1` false, region 1 with the same guard does not.
    let shared = regions(
        "true",
        &[
            "waituntil (x == 1) { x := 0; }",
            "waituntil (x == 1) { }",
            "waituntil (x == 0) { x := 1; }",
        ],
    );
    assert_eq!(table(&shared), "00010100\n02000101\n");
    // Swapped, so that the slip shows whichever region is asked.
    let swapped = regions(
        "true",
        &[
            "waituntil (x == 1) { }",
            "waituntil (x == 001) { x := 0; }",
            "waituntil (x == 0) { x := 1; }",
        ],
    );
    assert_eq!(table(&swapped), "01010100\n02000101\n");
    // Both waiters are notified by the broadcast, so the second may recheck.
    let frames = "000000 010000 020201 000001 010000";
    assert_eq!(both_answers(&shared, frames), [(0, 0); 2]);
}

#[test]
fn a_body_may_not_leave_a_range_midway() {
    let midway = regions("true", &["waituntil (true) { x := x + 1; x := x - 1; }"]);
    assert_eq!(answer(midway), (9, 0, 3));
    // The kept condition, though, may be false midway.
    let unkept_midway = regions("x < 3", &["waituntil (true) { x := x + 1; x := x - 1; }"]);
    assert_eq!(answer(unkept_midway), (0, 0, 0));
}

#[test]
fn a_waiting_thread_enters_no_other_method() {
    assert_eq!(both_answers(BOX, "000100 000001"), [(13, 1); 2]);
    assert_eq!(both_answers(BOX, "000100 000000"), [(13, 1); 2]);
}
