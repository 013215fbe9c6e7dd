//! The settled readings of document 01, and traces worked out by hand from it.

mod common;
use common::{answer, both, both_answers, byte_of, file, places, regions, table, trace, BOX};
use reference::tokens::tokens;
use reference::{check, run, Machine, Place};

/// The texts of a file's tokens, or the byte of refusal 2.
fn token_texts(text: &str) -> Result<Vec<String>, usize> {
    match tokens(text.as_bytes()) {
        Ok(tokens) => Ok(tokens.into_iter().map(|t| String::from_utf8(t.text).unwrap()).collect()),
        Err(answer) => Err(answer.first),
    }
}

fn split(text: &str, expected: &str) {
    let expected: Vec<String> = expected.split_whitespace().map(String::from).collect();
    assert_eq!(token_texts(text), Ok(expected), "{text}");
}

#[test]
fn tokens_need_no_blanks_between() {
    split("12a", "12 a");
    split("0in", "0 in");
    split("a1", "a1");
    split("a_1_", "a_1_");
    split("1..2", "1 .. 2");
    split("===", "== =");
    split(":==", ":= =");
    split("<==", "<= =");
    split("!==", "!= =");
    split("-1", "- 1");
    split("x--1", "x - - 1");
    split("a\tb\nc\rd e", "a b c d e");
    split("", "");
}

#[test]
fn bytes_that_begin_no_token() {
    assert_eq!(token_texts("12_"), Err(2));
    assert_eq!(token_texts("."), Err(0));
    assert_eq!(token_texts("..."), Err(2));
    assert_eq!(token_texts("...."), Ok(vec!["..".into(), "..".into()]));
    for lone in [":", "&", "|", "_", "a &", "a :b", "x\u{b}", "\u{c}", "\0", "\u{e9}", ","] {
        assert!(token_texts(lone).is_err(), "{lone:?}");
    }
    assert_eq!(token_texts(": ="), Err(0));
    assert_eq!(token_texts("a & &"), Err(2));
    // The whole run is measured, and refused at its first byte.
    assert_eq!(token_texts(" 1234"), Err(1));
    assert_eq!(token_texts("0001"), Err(0));
    assert_eq!(token_texts("x aaaaaaaaaaaaaaaaa"), Err(2));
    assert_eq!(token_texts("monitor monitormonitormonitor"), Err(8));
}

#[test]
fn reserved_words_are_compared_byte_for_byte() {
    // `True` is a name, so it may be a variable; `true` may not.
    let named = |name: &str| {
        file(&format!("var {name} = 0 in 0..1;"), "true", "method m { waituntil (true) { } }")
    };
    assert_eq!(answer(named("True")), (0, 0, 0));
    assert_eq!(answer(named("Monitor")), (0, 0, 0));
    for word in reference::tokens::RESERVED {
        let file = named(word);
        assert_eq!(answer(&file), (4, byte_of(&file, &format!("{word} = 0")), 0));
    }
}

#[test]
fn opened_less_closed_may_fall_below_zero() {
    // After `}` thirteen `{` only reach 12: this is 4 at the first token.
    assert_eq!(answer("}".to_string() + &"{".repeat(13)), (4, 0, 0));
    assert_eq!(answer("}".to_string() + &"{".repeat(14)), (3, 14, 0));
    assert_eq!(answer("({({({({({({("), (3, 12, 0));
    assert_eq!(answer("({({({({({({)}()"), (4, 0, 0));
}

#[test]
fn refusals_2_and_3_come_before_4() {
    assert_eq!(answer(") @"), (2, 2, 0));
    assert_eq!(answer(")".to_string() + &"(".repeat(20)), (3, 14, 0));
}

#[test]
fn what_the_grammar_takes_and_what_not() {
    let kept = |keep: &str| regions(keep, &["waituntil (true) { }"]);
    let good = |keep: &str| assert_eq!(answer(kept(keep)), (0, 0, 0), "{keep}");
    let at = |keep: &str, token: usize| {
        // The kept condition begins after `keep `.
        let file = kept(keep);
        assert_eq!(answer(&file), (4, byte_of(&file, "keep ") + 5 + token, 0), "{keep}");
    };
    good("x - -1 == 1");
    good("x + - 1 < - 0");
    good("!x == 1");
    good("!!!(x != 0 || !true)");
    good("((x == 0)) && (true || false)");
    good("true || false && false");
    at("-x == 0", 1);
    at("(x) == 0", 2);
    at("x", 1);
    at("x - - x == 0", 6);
    at("true == true", 5);
    at("x == 0 == 0", 7);
    at("x == !x", 5);
    at("x == (0)", 5);
    at("x =  = 0", 2);
    at("x && true", 2);
    at("x == 0 ! && true", 7);
    at("true && || true", 8);
    at("() || true", 1);
    at("1 2", 2);
    at("!", 1);
    at("(true", 5);
    at("true)", 4);
    at("x == keep", 5);
    at("x := 0", 2);

    let body = |body: &str| regions("true", &[&format!("waituntil (true) {{ {body} }}")]);
    let good = |text: &str| assert_eq!(answer(body(text)), (0, 0, 0), "{text}");
    let at = |text: &str, token: usize| {
        let file = body(text);
        assert_eq!(answer(&file), (4, byte_of(&file, "(true) { ") + 9 + token, 0), "{text}");
    };
    good("");
    good("if (true) { }");
    good("if (true) { } else { }");
    good("if (true) { } if (false) { } else { } x := 0;");
    good("if (true) { x := 1; if (x == 1) { } else { x := 2; } }");
    at("if (true) { } else if (true) { }", 19);
    at("if (true) { } else { } else { }", 23);
    at("else { }", 0);
    at("x = 1;", 2);
    at("x := 1", 7); // the `}` behind it
    at("x := ;", 5);
    at("x := x -;", 8);
    at("x := -x;", 6);
    at("x := true;", 5);
    at("x := x == 1;", 7);
    at("x := 1;;", 7);
    at("{ }", 0);
    at("if true { }", 3);
    at("if (x) { }", 5);
    at("if (true) x := 1;", 10);
    at("waituntil (true) { }", 0);
}

#[test]
fn the_file_as_a_whole() {
    let good = regions("true", &["waituntil (true) { }"]);
    // Tokens after the last `}`.
    assert_eq!(answer(format!("{good} }}")), (4, good.len() + 1, 0));
    assert_eq!(answer(format!("{good}\n{good}")), (4, good.len() + 1, 0));
    // The length is that of the file, blanks behind included.
    assert_eq!(answer("monitor m  \n"), (4, 12, 0));
    assert_eq!(answer("  "), (4, 2, 0));
    assert_eq!(answer(&good[..good.len() - 1]), (4, good.len() - 1, 0));
    // One or more of each.
    assert_eq!(answer("monitor m { keep true;"), (4, 12, 0));
    assert_eq!(answer("monitor m { var x = 0 in 0..1; method"), (4, 31, 0));
    assert_eq!(answer("monitor m { var x = 0 in 0..1; keep true; }"), (4, 42, 0));
    assert_eq!(answer("monitor m { var x = 0 in 0..1; keep true; method a { } }"), (4, 53, 0));
    assert_eq!(answer("monitor m { var x = 0 in 0..1; keep true; keep"), (4, 42, 0));
    assert_eq!(answer("monitor m { var x = 0 in +1"), (4, 25, 0));
    assert_eq!(answer("monitor m { var x = - -1"), (4, 22, 0));
    assert_eq!(answer("monitor 1"), (4, 8, 0));
}

#[test]
fn grammar_is_judged_without_the_later_limits() {
    // A file with nine variables, none declared once, that ends early is 4.
    let many = "monitor m { ".to_string() + &"var x = 9 in 1..0; ".repeat(9);
    assert_eq!(answer(&many), (4, many.len(), 0));
}

#[test]
fn a_thousand_exclamation_marks() {
    // Box has 48 tokens, so 976 more may stand in it.
    let with = |count: usize| BOX.replace("keep true", &format!("keep {}true", "!".repeat(count)));
    assert_eq!(answer(with(976)), (0, 0, 0));
    let odd = with(975);
    assert_eq!(answer(&odd), (8, byte_of(&odd, "keep"), 0));
}

#[test]
fn refusal_5_is_the_first_in_file_order() {
    let variables: String = (0..7).map(|n| format!("var v{n} = 0 in 0..0; ")).collect();
    let methods: String = (0..9)
        .map(|n| format!("method m{n} {{ {} }} ", "waituntil (true) { } ".repeat(2)))
        .collect();
    let all = file(&variables, "true", &methods);
    assert_eq!(answer(&all), (5, byte_of(&all, "var v6"), 0));
    // Without the seventh variable: the seventeenth region stands in the ninth method.
    let methods_first = all.replace("var v6 = 0 in 0..0; ", "");
    assert_eq!(answer(&methods_first), (5, byte_of(&methods_first, "method m8"), 0));
    let more_regions = methods_first.replace("method m0 {", "method m0 { waituntil (true) { }");
    let seventeenth = more_regions.match_indices("waituntil").nth(16).unwrap().0;
    assert!(seventeenth < byte_of(&more_regions, "method m8"));
    assert_eq!(answer(&more_regions), (5, seventeenth, 0));
}

#[test]
fn refusal_6_in_one_pass() {
    let method = "method m { waituntil (true) { } }";
    let twice = file("var x = 0 in 0..1; var x = 0 in 0..1;", "y == 0", method);
    assert_eq!(answer(&twice), (6, twice.rfind("x = 0").unwrap(), 0));
    let unknown = file("var x = 0 in 0..1;", "y == 0", &format!("{method} {method}"));
    assert_eq!(answer(&unknown), (6, byte_of(&unknown, "y == 0"), 0));
    let methods = file("var x = 0 in 0..1;", "true", &format!("{method} {method}"));
    assert_eq!(answer(&methods), (6, methods.rfind("m {").unwrap(), 0));
    // A method may bear a variable's name, and both the monitor's.
    let shared = file("var m = 0 in 0..1;", "m == 0", method);
    assert_eq!(answer(&shared), (0, 0, 0));
    // But a method's or the monitor's name is no variable.
    let monitor = file("var x = 0 in 0..1;", "m == 0", method);
    assert_eq!(answer(&monitor), (6, byte_of(&monitor, "m == 0"), 0));
    // The left side of an assignment is a use, and comes before its right side.
    let left = file("var x = 0 in 0..1;", "true", "method m { waituntil (true) { y := z; } }");
    assert_eq!(answer(&left), (6, byte_of(&left, "y :="), 0));
    let guard = file("var x = 0 in 0..1;", "true", "method m { waituntil (x == Y) { y := z; } }");
    assert_eq!(answer(&guard), (6, byte_of(&guard, "Y)"), 0));
    // 6 comes before 7.
    let both = file("var x = 9 in 1..0;", "true", "method m { waituntil (y == 0) { } }");
    assert_eq!(answer(&both), (6, byte_of(&both, "y =="), 0));
}

#[test]
fn refusal_8_before_9() {
    let both = regions("x == 1", &["waituntil (true) { x := 9; }"]);
    assert_eq!(answer(&both), (8, byte_of(&both, "keep"), 0));
}

#[test]
fn refusal_9_region_and_state() {
    // y weighs less than x: state 4 * x + y. Lowest region, then lowest state.
    let with = |keep: &str, body: &str| {
        file(
            "var x = 0 in 0..3; var y = 2 in 2..5;",
            keep,
            &format!("method a {{ waituntil (x == 2) {{ }} }} method b {{ waituntil (x >= 1 && y > 2) {{ {body} }} }}"),
        )
    };
    assert_eq!(answer(with("true", "y := y + 1;")), (9, 1, 4 + 3));
    assert_eq!(answer(with("true", "x := x + 1;")), (9, 1, 3 * 4 + 1));
    // Only states that meet the kept condition count, reachable or not.
    assert_eq!(answer(with("x != 3", "x := x + 1;")), (9, 1, 2 * 4 + 1));
    // Midway the kept condition may be false, at the end not.
    assert_eq!(answer(with("x != 3", "x := 3; x := 0;")), (0, 0, 0));
    assert_eq!(answer(with("x != 3", "x := 0; x := 3;")), (9, 1, 4 + 1));
    // A sum may leave the range inside an expression.
    assert_eq!(answer(with("true", "y := y + 999 - 999;")), (0, 0, 0));
    assert_eq!(answer(with("true", "y := y - 999;")), (9, 1, 4 + 1));
    // The branch that is not taken is not judged; the one taken is.
    assert_eq!(answer(with("true", "if (y == 5) { y := 2; } else { y := y + 1; }")), (0, 0, 0));
    assert_eq!(answer(with("true", "if (y == 4) { if (x == 3) { x := 4; } }")), (9, 1, 3 * 4 + 2));
    // The region of a later refusal is not the lowest.
    let two =
        regions("true", &["waituntil (x == 3) { x := 4; }", "waituntil (x == 0) { x := 4; }"]);
    assert_eq!(answer(two), (9, 0, 3));
}

#[test]
fn sums_outgrow_sixteen_bits() {
    let difference = format!("0 - {} < 0", vec!["999"; 40].join(" - "));
    assert_eq!(answer(regions(&difference, &["waituntil (true) { }"])), (0, 0, 0));
    let sum = vec!["999"; 40].join(" + ");
    let file = regions(&format!("{sum} > 0"), &["waituntil (true) { }"]);
    assert_eq!(answer(file), (0, 0, 0));
    let sum = vec!["999"; 66].join(" + "); // 65,934, which 16 bits keep as 398
    let file = regions(&format!("{sum} != 398"), &["waituntil (true) { }"]);
    assert_eq!(answer(file), (0, 0, 0));
}

#[test]
fn guards_that_are_one_and_guards_that_are_not() {
    let count = |guards: &[&str]| {
        let texts: Vec<String> =
            guards.iter().map(|guard| format!("waituntil ({guard}) {{ }}")).collect();
        let texts: Vec<&str> = texts.iter().map(String::as_str).collect();
        check(regions("true", &texts).as_bytes()).unwrap().guards.len()
    };
    assert_eq!(count(&["x == 1", "x == 001", "x\n==\t01"]), 1);
    assert_eq!(count(&["x == 1", "1 == x"]), 2);
    assert_eq!(count(&["x == 1", "(x == 1)"]), 2);
    assert_eq!(count(&["x == 0", "x == -0", "x == 00", "x == - 000"]), 2);
    assert_eq!(count(&["true", "x == x"]), 2);
    // Only regions' conditions are guards: the kept one and those of ifs are none.
    let file = regions("x != 3", &["waituntil (true) { if (x == 1) { } }"]);
    assert_eq!(check(file.as_bytes()).unwrap().guards.len(), 1);
    // Numbered by first appearance.
    let file = regions(
        "true",
        &["waituntil (x == 1) { }", "waituntil (x == 0) { }", "waituntil (x == 01) { }"],
    );
    let monitor = check(file.as_bytes()).unwrap();
    assert_eq!(monitor.regions.iter().map(|region| region.guard).collect::<Vec<_>>(), [0, 1, 0]);
}

#[test]
fn entries_by_hand() {
    // Region 0 takes x from 0 to 1, 2 or 3 by y. Guard 1 `x > 1` comes true from
    // some such states: conditional. Guard 2 `x != 0` from every one: unconditional.
    // Guard 1's region resets x: signal. Guard 2's region does not always: broadcast.
    let by_y = file(
        "var x = 0 in 0..3; var y = 1 in 1..3;",
        "true",
        "method a { waituntil (x == 0) { x := y; } }
         method b { waituntil (x > 1) { x := 0; } }
         method c { waituntil (x != 0) { x := x - 1; } }",
    );
    // Region 1 makes `x == 0` true from every state with it false and `x > 1` true.
    // Region 2 makes `x == 0` true only from x == 1, and never `x > 1` that was false.
    // Guard 0's region always leaves it false: signal.
    assert_eq!(table(&by_y), "00010000\n00020101\n01000100\n02000000\n");
    // Unconditional is asked only of states where the guard was false before: a body
    // that turns x over makes `x == 1` true from each of those.
    let turned = file(
        "var x = 0 in 0..1;",
        "true",
        "method a { waituntil (x == 1) { } } \
         method b { waituntil (true) { if (x == 0) { x := 1; } else { x := 0; } } }",
    );
    assert_eq!(table(&turned), "01000101\n");
    // States that do not meet the kept condition count for neither question.
    let kept =
        regions("x != 1", &["waituntil (x > 1) { x := 0; }", "waituntil (x < 2) { x := x + 2; }"]);
    // From x == 0 only: x becomes 2. From 2 and 3 region 0 makes `x < 2` true.
    assert_eq!(table(&kept), "00010100\n01000100\n");
}

#[test]
fn lines_that_are_no_frames() {
    let start = check(BOX.as_bytes()).unwrap().start_number();
    let judged = |trace: &[u8]| places(run(BOX.as_bytes(), trace, start, Machine::Plain));
    assert_eq!(judged(b""), (0, 0, 0));
    let bad: [&[u8]; 14] = [
        b"\n",
        b"000001\r\n",
        b"00000a\n",
        b"0a0001\n",
        b"100001\n",
        b"FF0001\n",
        b"000002\n",
        b"0000FF\n",
        b"00001\n",
        b"0000001\n",
        b" 000001\n",
        b"000001",
        b"0000 1\n",
        b"00G001\n",
    ];
    for line in bad {
        assert_eq!(judged(line), (12, 0, 0), "{line:?}");
        assert_eq!(judged(&[b"000001\n", line].concat()), (12, 1, 0), "{line:?}");
        // 12 runs over the whole trace before any 13 or 14.
        assert_eq!(judged(&[b"00FF01\n000000\n", line].concat()), (12, 2, 0), "{line:?}");
    }
    // A region that the file lacks is 13, in its turn.
    assert_eq!(judged(b"00FF01\n"), (13, 0, 0));
    assert_eq!(judged(b"000001\n000200\n"), (13, 1, 0));
    assert_eq!(judged(b"000000\n000200\n"), (14, 0, 0));
    assert_eq!(judged(b"0F0001\n"), (0, 0, 0));
}

/// One method of two regions and one of one, on x in 0..3 from 0.
fn two_steps() -> String {
    regions(
        "true",
        &[
            "waituntil (x == 0) { x := 1; } waituntil (x == 2) { x := 0; }",
            "waituntil (x == 1) { x := 2; }",
        ],
    )
}

#[test]
fn due_threads() {
    let file = two_steps();
    let [plain, of_table] = both(&file, "030001");
    assert_eq!(plain, of_table);
    let record = plain.unwrap();
    assert_eq!(record.values, [1]);
    assert_eq!(record.places[3], Place::Due(1));
    // While it is due, any frame but its own at that region is 13.
    for frame in ["000201", "030201", "030001", "030000", "00FF00", "000200"] {
        assert_eq!(both_answers(&file, &format!("030001 {frame}")), [(13, 1); 2], "{frame}");
    }
    // Its flag must be right: x is 1, so `x == 2` does not hold.
    assert_eq!(both_answers(&file, "030001 030101"), [(14, 1); 2]);
    // With 00 a due thread waits, and others go on.
    let [plain, _] = both(&file, "030001 030100");
    assert_eq!(plain.unwrap().places[3], Place::Waiting(1));
    let [plain, of_table] = both(&file, "030001 030100 000201");
    assert_eq!(plain, of_table);
    assert_eq!(plain.unwrap().notified_bits(), 1 << 3);
    let [plain, of_table] = both(&file, "030001 030100 000201 030101");
    assert_eq!(plain, of_table);
    let record = plain.unwrap();
    assert_eq!(
        (record.values.as_slice(), record.places[3], record.how_many()),
        (&[0][..], Place::Idle, 0)
    );
    // A due thread whose guard holds runs ahead of all waiters, notified or not.
    let file = regions("true", &["waituntil (true) { x := 1; } waituntil (x == 1) { x := 0; }"]);
    assert_eq!(both_answers(&file, "050001 050101"), [(0, 0); 2]);
}

#[test]
fn idle_threads_enter_first_regions() {
    let file = two_steps();
    assert_eq!(both_answers(&file, "000100"), [(13, 0); 2]);
    assert_eq!(both_answers(&file, "000200 010001"), [(0, 0); 2]);
    // 13 comes before 14: region 1 is not first and its flag is wrong too.
    assert_eq!(both_answers(&file, "000101"), [(13, 0); 2]);
    assert_eq!(both_answers(&file, "000000"), [(14, 0); 2]);
    assert_eq!(both_answers(&file, "000201"), [(14, 0); 2]);
}

#[test]
fn a_waiter_names_only_its_own_region() {
    let shared = regions(
        "true",
        &[
            "waituntil (x == 1) { x := 0; }",
            "waituntil (x == 1) { }",
            "waituntil (x == 0) { x := 1; }",
        ],
    );
    // Even one with the same guard is another region.
    assert_eq!(both_answers(&shared, "000000 000100"), [(13, 1); 2]);
    assert_eq!(both_answers(&shared, "000000 010201 000101"), [(13, 2); 2]);
    // Waiters on one guard are one queue, whatever their regions: thread 0 at
    // region 1 stands behind thread 1 at region 0, which came first.
    assert_eq!(both_answers(&shared, "010000 000100 020201 000101"), [(14, 3); 2]);
    // Thread 1 takes it away again, and thread 0 may recheck.
    assert_eq!(both_answers(&shared, "010000 000100 020201 010001 000100"), [(0, 0); 2]);
    // The other way round thread 0's body leaves it, and thread 1 runs too.
    assert_eq!(both_answers(&shared, "000100 010000 020201 010001"), [(14, 3); 2]);
    assert_eq!(both_answers(&shared, "000100 010000 020201 000101 010001"), [(0, 0); 2]);
    // On another guard an earlier thread does not stand before.
    let apart = regions(
        "true",
        &["waituntil (x == 1) { }", "waituntil (x > 0) { }", "waituntil (true) { x := 1; }"],
    );
    assert_eq!(both_answers(&apart, "000000 010100 020201 010101"), [(0, 0); 2]);
}

#[test]
fn notices_stay_until_used_up() {
    // Thread 0 is notified by the put, the get of thread 2 takes it away; its notice
    // stays, and one recheck uses it up.
    let frames = "000100 010001 020101";
    for record in both(BOX, frames) {
        assert_eq!(record.unwrap().notified_bits(), 1);
    }
    for record in both(BOX, &format!("{frames} 000100")) {
        assert_eq!(record.unwrap().notified_bits(), 0);
    }
    assert_eq!(both_answers(BOX, &format!("{frames} 000100 000100")), [(14, 4); 2]);
    // A notice that stayed is good for a later run.
    assert_eq!(both_answers(BOX, &format!("{frames} 010001 000101")), [(0, 0); 2]);
}

#[test]
fn a_signal_picks_the_earliest_waiter_though_it_has_a_notice() {
    // Threads 0 and 1 wait; put, get by an idle thread, put: the plain machine has
    // notified both, the table's thread 0 twice and thread 1 never.
    let [plain, of_table] = both(BOX, "000100 010100 020001 030101 020001");
    assert_eq!(plain.unwrap().notified_bits(), 0b11);
    assert_eq!(of_table.unwrap().notified_bits(), 0b01);
    // So with thread 1 before thread 0, the table's tells thread 1 twice.
    let [plain, of_table] = both(BOX, "010100 000100 020001 030101 020001");
    assert_eq!(plain.unwrap().notified_bits(), 0b11);
    assert_eq!(of_table.unwrap().notified_bits(), 0b10);
    // A lower thread that comes later is picked by nobody while thread 5 waits.
    let [plain, of_table] = both(BOX, "050100 020001 030101 010100 020001");
    assert_eq!(plain.unwrap().notified_bits(), 0b100010);
    assert_eq!(of_table.unwrap().notified_bits(), 0b100000);
    // Without a put after it, the later one is not notified.
    let [plain, of_table] = both(BOX, "050100 020001 030101 010100");
    assert_eq!(plain.unwrap().notified_bits(), 0b100000);
    assert_eq!(of_table.unwrap().notified_bits(), 0b100000);
}

#[test]
fn a_conditional_entry_acts_only_if_the_guard_holds() {
    // Region 1 counts up; `x == 2` comes true from x == 1 only.
    let counting =
        regions("true", &["waituntil (x == 2) { x := 0; }", "waituntil (x < 3) { x := x + 1; }"]);
    assert_eq!(table(&counting), "01000000\n");
    let bits = |frames: &str| both(&counting, frames).map(|record| record.unwrap().notified_bits());
    assert_eq!(bits("000000 010101"), [0, 0]);
    assert_eq!(bits("000000 010101 010101"), [1, 1]);
}

#[test]
fn a_range_of_256_values() {
    let wide = file(
        "var x = 127 in -128..127;",
        "true",
        "method a { waituntil (x == 127) { x := -128; } } method b { waituntil (x < 127) { x := x + 1; } }",
    );
    let monitor = check(wide.as_bytes()).unwrap();
    assert_eq!((monitor.count_of_states(), monitor.start_number()), (256, 255));
    let from = |start| run(wide.as_bytes(), b"", start, Machine::Plain).map(|record| record.values);
    assert_eq!(from(0), Ok(vec![-128]));
    assert_eq!(from(255), Ok(vec![127]));
    assert_eq!(places(from(256)), (11, 0, 0));
    let [plain, _] = both(&wide, "000001 000101");
    assert_eq!(plain.unwrap().values, [-127]);
    // Region 1 leaves `x < 127` true from most states, so it is broadcast.
    assert_eq!(table(&wide), "00010101\n01000000\n");
}

#[test]
fn state_numbers_count_mixed_radix() {
    let file = file(
        "var a = 0 in -1..1; var b = 5 in 5..6; var c = 0 in 0..4;",
        "true",
        "method m { waituntil (true) { } }",
    );
    let from = |start| run(file.as_bytes(), b"", start, Machine::Table).unwrap().values;
    assert_eq!(from(0), [-1, 5, 0]);
    assert_eq!(from(4), [-1, 5, 4]);
    assert_eq!(from(5), [-1, 6, 0]);
    assert_eq!(from(10), [0, 5, 0]);
    assert_eq!(from(29), [1, 6, 4]);
    assert_eq!(check(file.as_bytes()).unwrap().start_number(), 10);
}

#[test]
fn runs_from_another_start() {
    // From full == 1 the get comes first.
    let judged = |start| places(run(BOX.as_bytes(), &trace("000101"), start, Machine::Table));
    assert_eq!(judged(1), (0, 0, 0));
    assert_eq!(judged(0), (14, 0, 0));
}
