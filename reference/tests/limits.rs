//! Every limit at its last good value and one past it.

mod common;
use common::{answer, byte_of, file, places, regions, trace, BOX};
use reference::lines::{runner, MOST_TRACE_BYTES};
use reference::{check, place, run, Machine};

#[test]
fn bytes_of_a_file() {
    let padded = |length: usize| BOX.to_string() + &" ".repeat(length - BOX.len());
    assert_eq!(answer(padded(8192)), (0, 0, 0));
    assert_eq!(answer(padded(8193)), (1, 0, 0));
    // 1 comes before every other refusal.
    assert_eq!(answer(vec![b'@'; 8192]), (2, 0, 0));
    assert_eq!(answer(vec![b'@'; 8193]), (1, 0, 0));
}

#[test]
fn bytes_of_a_word() {
    let named = |length: usize| BOX.replace("box", &"b".repeat(length));
    assert_eq!(answer(named(16)), (0, 0, 0));
    assert_eq!(answer(named(17)), (2, 8, 0));
}

#[test]
fn digits_of_a_number() {
    assert_eq!(answer(BOX.replace("full == 1", "full == 001")), (0, 0, 0));
    assert_eq!(answer(BOX.replace("full == 1", "full == 999")), (0, 0, 0));
    let four = BOX.replace("full == 1", "full == 0001");
    assert_eq!(answer(&four), (2, byte_of(&four, "0001"), 0));
}

#[test]
fn tokens_of_a_file() {
    // Box has 48 tokens; every `!` of the kept condition adds one.
    let with_marks =
        |count: usize| BOX.replace("keep true", &format!("keep {}true", "!".repeat(count)));
    assert_eq!(reference::tokens::tokens(BOX.as_bytes()).unwrap().len(), 48);
    assert_eq!(answer(with_marks(1024 - 48)), (0, 0, 0));
    let over = with_marks(1025 - 48);
    assert_eq!(answer(&over), (3, over.len() - 1, 0));
    // The 1,025th token itself, whatever follows.
    let far_over = format!("{over} box box");
    assert_eq!(answer(&far_over), (3, over.len() - 1, 0));
}

#[test]
fn depth_of_brackets() {
    let kept = |depth: usize| {
        BOX.replace("keep true", &format!("keep {}true{}", "(".repeat(depth), ")".repeat(depth)))
    };
    assert_eq!(answer(kept(11)), (0, 0, 0));
    let over = kept(12);
    assert_eq!(answer(&over), (3, byte_of(&over, "(true"), 0));

    let nested = |depth: usize| {
        let body = "if (true) { ".repeat(depth) + &"} ".repeat(depth);
        regions("true", &[&format!("waituntil (true) {{ {body} }}")])
    };
    // Three are open around a body, so the ninth `if (..) {` reaches twelve and the
    // tenth goes past it with its `(`.
    assert_eq!(answer(nested(9)), (0, 0, 0));
    let over = nested(10);
    let last_if = over.rfind("if (").unwrap();
    assert_eq!(answer(&over), (3, last_if + 3, 0));

    let guarded = |depth: usize| {
        let guard = "(".repeat(depth) + "true" + &")".repeat(depth);
        regions("true", &[&format!("waituntil ({guard}) {{ }}")])
    };
    assert_eq!(answer(guarded(9)), (0, 0, 0));
    let over = guarded(10);
    assert_eq!(answer(&over), (3, byte_of(&over, "(true"), 0));
}

#[test]
fn variables() {
    let with = |count: usize| {
        let variables: String = (0..count).map(|n| format!("var v{n} = 0 in 0..1; ")).collect();
        file(&variables, "true", "method m { waituntil (true) { } }")
    };
    assert_eq!(answer(with(6)), (0, 0, 0));
    let over = with(7);
    assert_eq!(answer(&over), (5, byte_of(&over, "var v6"), 0));
    let far_over = with(9);
    assert_eq!(answer(&far_over), (5, byte_of(&far_over, "var v6"), 0));
}

#[test]
fn tries() {
    let with = |count: usize| {
        let tries: String = (0..count).map(|n| format!("; try x < {n}")).collect();
        regions(&format!("true{tries}"), &["waituntil (true) { }"])
    };
    assert_eq!(answer(with(0)), (0, 0, 0));
    assert_eq!(answer(with(16)), (0, 0, 0));
    let over = with(17);
    assert_eq!(answer(&over), (5, byte_of(&over, "try x < 16"), 0));
    let far_over = with(20);
    assert_eq!(answer(&far_over), (5, byte_of(&far_over, "try x < 16"), 0));
}

#[test]
fn methods() {
    let with = |count: usize| regions("true", &vec!["waituntil (true) { }"; count]);
    assert_eq!(answer(with(8)), (0, 0, 0));
    let over = with(9);
    assert_eq!(answer(&over), (5, byte_of(&over, "method m8"), 0));
}

#[test]
fn regions_of_a_file() {
    let with = |count: usize| {
        regions("true", &[&"waituntil (x == 0) { } ".repeat(count), "waituntil (true) { }"])
    };
    assert_eq!(answer(with(15)), (0, 0, 0));
    let over = with(16);
    assert_eq!(answer(&over), (5, over.rfind("waituntil").unwrap(), 0));
}

#[test]
fn ranges() {
    let with = |variable: &str| {
        file(&format!("var y = 0 in 0..1; {variable}"), "true", "method m { waituntil (true) { } }")
    };
    let good = |variable: &str| assert_eq!(answer(with(variable)), (0, 0, 0), "{variable}");
    let bad = |variable: &str| {
        let file = with(variable);
        assert_eq!(answer(&file), (7, byte_of(&file, "var x"), 0), "{variable}");
    };
    good("var x = -128 in -128..127;");
    good("var x = 127 in -128..127;");
    good("var x = 5 in 5..5;");
    good("var x = -0 in -0..000;");
    bad("var x = 0 in -129..127;");
    bad("var x = 0 in -128..128;");
    bad("var x = 999 in 999..999;");
    bad("var x = 1 in 2..1;");
    bad("var x = 0 in 1..0;");
    bad("var x = 0 in 1..2;");
    bad("var x = 3 in 1..2;");
}

#[test]
fn product_of_range_sizes() {
    let with = |sizes: &[i64]| {
        let variables: String = sizes
            .iter()
            .enumerate()
            .map(|(n, size)| format!("var v{n} = 0 in 0..{}; ", size - 1))
            .collect();
        file(&variables, "true", "method m { waituntil (true) { } }")
    };
    assert_eq!(answer(with(&[64, 64])), (0, 0, 0));
    assert_eq!(answer(with(&[4; 6])), (0, 0, 0));
    assert_eq!(answer(with(&[128, 32])), (0, 0, 0));
    assert_eq!(answer(with(&[64, 64, 1, 1])), (0, 0, 0));
    let over = with(&[64, 65]);
    assert_eq!(answer(&over), (7, byte_of(&over, "var v1"), 0));
    let over = with(&[64, 64, 1, 2]);
    assert_eq!(answer(&over), (7, byte_of(&over, "var v3"), 0));
    // 4,097 is 17 times 241, and nothing lies between it and 4,096.
    let method = "method m { waituntil (true) { } }";
    let next = file("var a = 0 in 0..16; var b = 0 in -120..120;", "true", method);
    assert_eq!(answer(&next), (7, byte_of(&next, "var b"), 0));
    // The running product: the variable that takes it above, not a later worse one.
    let twice = file(
        "var a = 0 in 0..99; var b = 0 in 0..99; var c = 9 in 0..1;",
        "true",
        "method m { waituntil (true) { } }",
    );
    assert_eq!(answer(&twice), (7, byte_of(&twice, "var b"), 0));
    let earlier = file(
        "var a = 0 in 0..99; var c = 9 in 0..1; var b = 0 in 0..99;",
        "true",
        "method m { waituntil (true) { } }",
    );
    assert_eq!(answer(&earlier), (7, byte_of(&earlier, "var c"), 0));
}

#[test]
fn table_buffer() {
    assert_eq!(place(BOX.as_bytes(), 18).unwrap().table, b"00010100\n01000100\n");
    assert_eq!(places(place(BOX.as_bytes(), 17)), (10, 0, 0));
    assert_eq!(places(place(BOX.as_bytes(), 0)), (10, 0, 0));
    // An empty table needs no buffer; 9 comes before 10.
    let empty = regions("true", &["waituntil (true) { }"]);
    assert_eq!(place(empty.as_bytes(), 0).unwrap().table, b"");
    let leaving = regions("true", &["waituntil (x == 0) { x := 4; }"]);
    assert_eq!(places(place(leaving.as_bytes(), 0)), (9, 0, 0));
}

#[test]
fn longest_table() {
    // Sixteen guards, each made true by the fifteen other regions.
    let all: String = (0..16).map(|n| format!("waituntil (x == {n}) {{ x := y; }} ")).collect();
    let file =
        file("var x = 0 in 0..15; var y = 0 in 0..15;", "true", &format!("method m {{ {all} }}"));
    let table = place(file.as_bytes(), 240 * 9).unwrap().table;
    assert_eq!(table.len(), 240 * 9);
    assert!(table.starts_with(b"00010001\n00020001\n"));
    assert!(table.ends_with(b"0F0E0001\n"));
}

#[test]
fn start_state() {
    let file = regions("x != 2", &["waituntil (true) { }"]);
    let from = |start| run(file.as_bytes(), b"", start, Machine::Plain);
    assert_eq!(from(3).unwrap().values, [3]);
    assert_eq!(places(from(4)), (11, 0, 0));
    assert_eq!(places(from(usize::MAX)), (11, 0, 0));
    assert_eq!(places(from(2)), (11, 0, 0));
    // 11 comes before 12.
    assert_eq!(places(run(file.as_bytes(), b"bad", 2, Machine::Table)), (11, 0, 0));
}

#[test]
fn bytes_of_a_trace() {
    // A put and a get by turns: any count of frames is allowed.
    let turns = |frames: usize| "000001\n000101\n".repeat(frames / 2).into_bytes();
    let accepted = format!("0080{}\n", "FF".repeat(16)).repeat(2);
    let refused = "0C24920000\n".repeat(2); // 9,362 is 2492 in hexadecimal.
    let lines = |trace: &[u8]| String::from_utf8(runner(BOX.as_bytes(), trace)).unwrap();
    assert_eq!(9362 * 7, MOST_TRACE_BYTES - 2);
    assert_eq!(lines(&turns(9362)), accepted);
    let mut longer = turns(9362);
    longer.push(b'0');
    assert_eq!(lines(&longer), refused); // 65,535 bytes
    longer.push(b'0');
    assert_eq!(lines(&longer), refused); // 65,536 bytes
    assert_eq!(lines(&turns(9364)), refused);
    assert_eq!(lines(&turns(20000)), refused);
    // A refused frame before does not matter: 12 runs over the whole trace first.
    let mut early = trace("000101");
    early.extend(turns(9364));
    assert_eq!(lines(&early), refused);
    // The library takes any slice, and its frame numbers outgrow 16 bits.
    let start = check(BOX.as_bytes()).unwrap().start_number();
    let mut long = turns(70_000);
    assert!(run(BOX.as_bytes(), &long, start, Machine::Table).is_ok());
    long.extend(b"000101\n");
    assert_eq!(places(run(BOX.as_bytes(), &long, start, Machine::Table)), (14, 70_000, 0));
}
