//! Reasons and remedies: frequent slips, each with what it is told, and that no refusal is left without a reason.
mod common;
use common::BOX;
use damsonyet::Machine;
use panel::frames;
use panel::sheet::Sheet;
use panel::words;

fn on_a_stack(test: impl FnOnce() + Send + 'static) {
    std::thread::Builder::new().stack_size(panel::STACK).spawn(test).expect("a thread").join().expect("the test")
}

/// Box with one part replaced by another.
fn changed(from: &str, to: &str) -> Vec<u8> {
    let text = String::from_utf8(BOX.to_vec()).expect("ASCII");
    assert!(text.contains(from), "{from}");
    text.replacen(from, to, 1).into_bytes()
}

/// A slip is refused with a number at what begins so, and told with these words.
fn slip(file: &[u8], number: u8, at: &str, said: &str) {
    let refusal = damsonyet::check(file).expect_err("a slip");
    let refused = words::refusal(file, &refusal);
    let all = format!("{} | {} | {}", refused.headline, refused.reason, refused.remedy);
    assert_eq!(refusal.number, number, "{all}");
    let place = refused.at.map_or(&b""[..], |at| &file[at..]);
    assert!(place.starts_with(at.as_bytes()), "{all} at {}", String::from_utf8_lossy(place));
    assert!(all.contains(said), "{all}");
    assert!(refused.headline.starts_with(&format!("{number}: ")) && !refused.remedy.is_empty());
}

#[test]
fn slips_in_files() {
    on_a_stack(|| {
        for (from, to, number, at, said) in [
            ("keep", "# note\n keep", 2, "#", "no comments"),
            ("keep true", "keep true & true", 2, "&", "'&&'"),
            ("keep true", "keep true | true", 2, "|", "'||'"),
            ("full := 1", "full : 1", 2, ":", "':='"),
            ("0..1", "0.1", 2, ".", "'..'"),
            ("full", "_full", 2, "_", "begins with a letter"),
            ("full := 1", "full := 1 * 1", 2, "*", "'+' and '-' only"),
            ("full := 1", "full := 7 % 2", 2, "%", "'mod' for the remainder"),
            ("put", "p\u{fc}t", 2, "", "not ASCII"),
            ("monitor", "\u{feff}monitor", 2, "", "byte order mark"),
            ("put", "p\0t", 2, "\0", "control character"),
            ("0..1", "0..1000", 2, "1000", "4 digits"),
            ("box", "a_box_for_one_event", 2, "a_box", "19 bytes"),
            ("full := 1", "full = 1", 4, "=", "':=' assigns"),
            ("full == 0", "full = 0", 4, "=", "'==' compares"),
            ("full == 0", "full := 0", 4, ":=", "to compare write '=='"),
            ("0..1;", "0..1", 4, "keep", "A variable ends with ';'"),
            ("full = 0", "full := 0", 4, ":=", "var x = 0 in 0..3;"),
            ("full = 0", "full", 4, "in 0", "var x = 0 in 0..3;"),
            ("full := 1;", "full == 1;", 4, "== 1;", "':=' assigns: write name := value;"),
            ("full := 1;", "full += 1;", 4, "+= 1;", "write name := name + 1;"),
            ("method put", "method put()", 4, "()", "takes no brackets"),
            ("waituntil (full == 0) { full := 1; }", "full := 1;", 4, "full := 1", "write waituntil (guard)"),
            ("full := 1;", "if (full == 0) full := 1;", 4, "full := 1;", "comes a block"),
            ("full := 1;", "if (true) { } else full := 1;", 4, "full := 1;", "After 'else' comes '{'"),
            ("full = 0", "full = 0000", 2, "0000", "at most three digits"),
            ("full := 1;", "full := -full;", 4, "full;", "write 0 - name"),
            ("full := 1;", "full := 1", 4, "}", "missing before this '}'"),
            ("full := 1;", "if (true) { };", 4, ";", "no ';' behind it"),
            ("full := 1;", "if (true) { } else if (true) { }", 4, "if (true) { } }", "After 'else' comes '{'"),
            ("full := 1;", "full := (full);", 4, "(full)", "not around sums"),
            ("full := 1;", "full := true;", 4, "true", "values are numbers"),
            ("full == 0", "(full) == 0", 4, ")", "not around sums"),
            ("full == 0", "0 <= full <= 1", 4, "<= 1", "do not chain"),
            ("full == 0", "full == 0 and true", 4, "and", "'&&' for and"),
            ("var full", "var keep", 4, "keep = 0", "reserved"),
            ("var full", "Var full", 4, "Var", "small letters"),
            ("  keep true;\n", "", 4, "method", "one 'keep'"),
            ("keep true;", "keep true; keep true;", 4, "keep true;\n", "one 'keep'"),
            ("keep true;", "try full < 2; keep true;", 4, "try", "right behind 'keep'"),
            ("keep true;", "keep true; try true; keep true;", 4, "keep true;\n", "one 'keep'"),
            ("method get", "try full < 2; method get", 4, "try", "right behind 'keep'"),
            ("full := 1;", "try full < 2;", 4, "try", "right behind 'keep'"),
            ("full := 1;", "full := try;", 4, "try", "reserved"),
            ("keep true;", "keep true try full < 2;", 4, "try", "'keep' ends with ';'"),
            ("keep true;", "keep true; try full < 2 try true;", 4, "try true", "A 'try' ends with ';'"),
            ("keep true;", "keep true; try full < 2", 4, "method put", "A 'try' ends with ';'"),
            ("keep true;", "keep true; try ;", 4, ";", "Behind 'try' comes a condition"),
            ("keep true;", "keep true; try", 4, "method put", "Behind 'try' comes a condition"),
            ("keep true;", "keep true; try (full) < 2;", 4, ")", "not around sums"),
            ("keep true;", "keep true; try full = 1;", 4, "= 1;", "'==' compares"),
            ("keep true;", "keep true; Try full < 2;", 4, "Try", "small letters"),
            ("var full", "var try", 4, "try = 0", "reserved"),
            ("method put", "method try", 4, "try {", "reserved"),
            ("var full", "var mod", 4, "mod = 0", "reserved"),
            ("method put", "method mod", 4, "mod {", "reserved"),
            ("full := 1;", "mod := 1;", 4, "mod := 1", "The word is reserved"),
            ("full := 1;", "full := mod;", 4, "mod;", "The word is reserved"),
            ("full := 1;", "full := 1 mod;", 4, ";", "Behind 'mod' comes its divisor"),
            ("full := 1;", "full := mod 2;", 4, "mod 2", "between two integers or variables"),
            ("full := 1;", "full mod 2;", 4, "mod 2", "write name := name mod 4;"),
            ("full := 1;", "full := 7 MOD 2;", 4, "MOD", "small letters"),
            ("full := 1;", "full := 7 mod 4 mod 2;", 4, "mod 2", "No second 'mod'"),
            ("full == 0", "full mod -4 mod 2 == 0", 4, "mod 2", "No second 'mod'"),
            ("full := 1;", "full := 1 mod -full;", 4, "full;", "a '-' needs a number"),
            ("full := 1;", "full := 1 mod (2);", 4, "(2)", "a variable of its own"),
            ("full := 1;", "full := (full - 1) mod 2;", 4, "(full - 1)", "a variable of its own"),
            ("full == 0", "(full - 1) mod 2 == 0", 4, ") mod", "a variable of its own"),
            ("full == 0", "(full == 0) mod 2 == 0", 4, "mod 2", "a variable of its own"),
            ("keep true;", "keep true; try ful < 2;", 6, "ful <", "no variable 'ful'"),
            ("keep true;", "keep true; var x = 0 in 0..1;", 4, "var x", "variables come first"),
            ("monitor box", "box", 4, "box", "begins with 'monitor'"),
            ("}\n}\n", "}\n}\n}\n", 4, "}\n", "ends with the '}' before"),
            ("}\n}\n", "}\n", 4, "", "ends early: a bracket or brace is still open"),
            ("  var full = 0 in 0..1;\n", "", 4, "keep", "(one at least)"),
            ("method get", "method put", 6, "put { waituntil (full == 1)", "'put' is declared before"),
            ("keep", "var full = 0 in 0..1; keep", 6, "full = 0 in 0..1; keep", "'full' is declared before"),
            ("full == 0", "Full == 0", 6, "Full", "no variable 'Full'"),
            ("0..1", "1..0", 7, "var full", "'var full = 0 in 1..0;'"),
            (
                "keep true",
                "keep 7 mod 0 == 0",
                15,
                "mod 0",
                "The divisor 0 is below 1. A remainder by it never has a value, and 'keep' must",
            ),
            ("keep true", "keep 7 mod - 002 == 0", 15, "mod - 002", "The divisor -2 is below 1"),
            ("keep true", "keep true || 7 mod full == 0", 15, "mod full", "The divisor 'full' can be 0 ('var full = 0 in 0..1;')"),
            ("keep true", "keep full > 0 && 7 mod full == 0", 15, "mod full", "always evaluate both sides"),
            ("keep true;", "keep true; try 7 mod full == 0;", 15, "mod full", "this 'try', be it chosen or not, must have a value"),
            ("full == 1", "1mod full==1", 15, "mod full==1", "this guard must have a value in every state"),
            ("keep true", "keep full == 1", 8, "keep", "At full = 0"),
            ("full := 1", "full := 2", 9, "full := 2", "the body of put (region 00), which begins here, assigns outside a range."),
            ("full := 1", "full := full + 2 mod 3", 9, "full := full", "'mod' binds closer than '+' and '-'"),
            ("full := 1", "full := 5 mod 3", 9, "full := 5", "begins here, assigns outside a range. Every assignment counts"),
            ("full := 1", "full := 5 mod full", 9, "full := 5", "outside a range, or takes a remainder by 'full', which has no value"),
            ("full := 1;", "if (true || 5 mod full > 5 mod 0) { }", 9, "if (true", "takes a remainder by 'full' or 0, which has no value"),
            ("keep true", "keep full == 0", 9, "full := 1", "ends at state 1 (full = 1), where the kept condition is false"),
        ] {
            slip(&changed(from, to), number, at, said);
        }
        // A range that begins below 0, and numbers that touch words.
        let low = changed("full = 0 in 0..1", "full=0in-2..1;var one=1in 1..1");
        let low = String::from_utf8(low).expect("ASCII").replace("full == 1", "1mod one==0&&1mod full==0");
        slip(low.as_bytes(), 15, "mod full", "The divisor 'full' can be below 1, down to -2 ('var full=0in-2..1;')");
        slip(b"", 4, "", "empty");
        slip(b" \n\t", 4, "", "blanks only");
        slip(&[b' '; 8193], 1, "", "more than 8,192 bytes");
        let many = |part: &str, n: usize| (0..n).map(|k| part.replace('$', &k.to_string())).collect::<String>();
        slip(&changed("keep", &(many("var v$ = 0 in 0..0; ", 6) + "keep")), 5, "var v5", "7th variable");
        slip(&changed("keep true;", &("keep true; ".to_string() + &many("try full < $; ", 17))), 5, "try full < 16", "17th try");
        slip(&changed("method get", &(many("method m$ { waituntil (true) { } } ", 7) + "method get")), 5, "method get", "9th method");
        slip(
            &changed("full := 1; }", &("full := 1; }".to_string() + &many(" waituntil (true) { }", 15))),
            5,
            "waituntil (full == 1)",
            "17th region",
        );
        slip(&changed("full == 0", &("(".repeat(10) + "true" + &")".repeat(10))), 3, "(true", "13th level");
        slip(&changed("full := 1;", &many("full := 1; ", 300)), 3, "", "past the 1,024th");
    });
}

/// A trace on a file: the reasons of both machines, empty where a machine accepts.
fn reasons(file: &[u8], trace: &[u8], start: Option<usize>) -> [String; 2] {
    let sheet = Sheet::new(file, damsonyet::outline(file).expect("an outline").0);
    let start = start.unwrap_or(sheet.outline.start);
    let both = damsonyet::run_both(file, trace, start).expect("an accepted file");
    let points = damsonyet::points(file, trace, start).map(|points| points.points).unwrap_or_default();
    [(Machine::Plain, both.plain), (Machine::Table, both.table)].map(|(machine, answer)| match answer {
        Ok(_) => String::new(),
        Err(refusal) => {
            let refused = words::run_refusal(&sheet, trace, start, &points, machine, &refusal);
            assert!(refused.headline.starts_with(&format!("{}: ", refusal.number)));
            assert!(!refused.reason.is_empty() && !refused.remedy.is_empty());
            assert!(!refused.reason.contains("does not allow the event"), "no reason: {refused:?}");
            format!("{} {}", refused.reason, refused.remedy)
        }
    })
}

#[test]
fn slips_in_traces() {
    on_a_stack(|| {
        let twice = b"monitor m { var x = 0 in 0..1; keep true; method a { waituntil (true) { x := 1; } waituntil (x == 0) { } } \
            method b { waituntil (true) { x := 0; } } }";
        for (file, trace, said) in [
            (BOX, "000100", "not ended by a line feed"),
            (BOX, "000100\n\n", "Line 1 of the trace, counted from 0, is no frame: it is empty"),
            (BOX, "000100\r\n", "a carriage return (0D) stands before its line feed"),
            (BOX, "000100\r000100\r", "a carriage return (0D) where a line feed must be"),
            (BOX, "00 01 00\n", "blank"),
            (BOX, "0a0100\n", "'a' is a small letter"),
            (BOX, "0G0100\n", "'G' is no digit"),
            (BOX, "00010\n", "5 digits, not six"),
            (BOX, "0001000\n", "7 digits, not six"),
            (BOX, "100100\n", "no thread 10"),
            (BOX, "000102\n", "02 is no flag"),
            (BOX, "00\u{e4}\n", "the byte C3"),
            (BOX, "000200\n", "The file has no region 02. Its regions are 00 to 01"),
            (BOX, "000100\n000001\n", "Thread 00 waits at get (region 01) and may name no other region"),
            (twice, "000001\n010201\n", "Thread 00 is due at a.2 (region 01) and must send the next frame. The next frame must be 000100."),
            (twice, "000001\n000001\n", "Thread 00 is due at a.2 (region 01) and may name no other region"),
            (twice, "000101\n", "Thread 00 is idle, and a.2 (region 01) is not the first region of its method"),
            (BOX, "000101\n", "Flag 01 says that full == 1 holds, and it does not"),
            (BOX, "000000\n", "Flag 00 says that full == 0 does not hold, and it does"),
            (BOX, "000100\n000100\n", "Thread 00 waits and is not notified"),
            (BOX, "000100\n000101\n", "mend the flag. And the thread waits and is not notified"),
            (twice, "000001\n000101\n", "at that moment: mend the flag."),
        ] {
            let told = reasons(file, trace.as_bytes(), None);
            assert!(told[0].contains(said), "{trace}: {told:?}");
            assert_eq!(told[0], told[1]);
        }
        // Who stands ahead is named, the earliest first.
        let told = reasons(BOX, b"010100\n000100\n020001\n000101\n", None);
        assert!(told[0].starts_with("Thread 01 began to wait before thread 00 on this guard and is notified."), "{told:?}");
        let both = "Thread 00 waits and is not notified; thread 01 began to wait before it on this guard and is notified.";
        assert!(told[1].starts_with(both), "{told:?}");
        assert!(told.iter().all(|told| told.ends_with("goes first: let thread 01 run before.")), "{told:?}");
        assert_eq!(reasons(BOX, b"010100\n000100\n020001\n010101\n", None), [String::new(), String::new()]);
        let told = reasons(BOX, b"0A0100\n000100\n050100\n020001\n050101\n", None);
        assert!(told[0].starts_with("Threads 0A and 00 began to wait before thread 05 on this guard and are notified."), "{told:?}");
        assert!(told[1].contains("; thread 0A began to wait before it on this guard and is notified."), "{told:?}");
        assert!(told.iter().all(|told| told.ends_with("let threads 0A and 00 run before, in this order.")), "{told:?}");
        let told = reasons(BOX, b"000100\n010100\n020001\n030101\n010100\n", None);
        assert!(told[0].is_empty() && told[1].contains("the plain machine has notified it. Nothing is wrong"), "{told:?}");
        assert!(reasons(BOX, b"", Some(2))[0].contains("There is no state 2: the states are 0 to 1"));
        let kept = changed("keep true", "keep full == full && full <= 1");
        assert_eq!(reasons(&kept, b"", Some(1)), [String::new(), String::new()]);
    });
}

/// Every refusal of drawn traces has a reason of its own, and every frame a sentence.
#[test]
fn no_refusal_without_a_reason() {
    on_a_stack(|| {
        let mut seed = 11u64;
        let mut below = |n: usize| {
            seed = seed.wrapping_mul(6364136223846793005).wrapping_add(1442695040888963407);
            (seed >> 33) as usize % n
        };
        let mut refused = 0;
        for example in ["box", "breaker", "breaker-round", "barrier", "bounded-buffer", "readers-writers", "round-robin"] {
            let file = std::fs::read(common::root().join("examples").join(example).join("monitor.txt")).expect("the file");
            let sheet = Sheet::new(&file, damsonyet::outline(&file).expect("an outline").0);
            let regions = sheet.outline.regions.len();
            for _ in 0..60 {
                let mut trace = Vec::new();
                // Frames are kept where both machines take them, and the first that one refuses ends the trace at times.
                for _ in 0..40 {
                    let frame = format!("{:02X}{:02X}{:02X}\n", below(4), below(regions + 1), below(2));
                    let longer = [&trace[..], frame.as_bytes()].concat();
                    let both = damsonyet::run_both(&file, &longer, sheet.outline.start).expect("an accepted file");
                    if both.plain.is_ok() && both.table.is_ok() || below(12) == 0 {
                        trace = longer;
                    }
                }
                refused += reasons(&file, &trace, None).iter().filter(|reason| !reason.is_empty()).count();
                let points = damsonyet::points(&file, &trace, sheet.outline.start).expect("points");
                for (k, frame) in frames::frames(&trace).iter().enumerate() {
                    let Some(before) = points.points.get(k) else { break };
                    let sentence = words::frame(&sheet, frame, before, points.points.get(k + 1));
                    assert!(sentence.starts_with(&format!("Thread {:02X} ", frame.thread)) && sentence.ends_with('.'), "{sentence}");
                }
                if let Some(k) = words::parts_at(&points.plain, &points.table) {
                    assert!(words::parting(&sheet, &frames::frames(&trace)[k], &points.points[k]).contains("part"));
                }
            }
        }
        assert!(refused > 100, "{refused}");
    });
}
