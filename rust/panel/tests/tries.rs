//! Tries: which are chosen and why the others are not, in words and for tools, against the library's fates and states.
mod common;
use common::{command, panel, panel_reading, root, status, stdout, Json, Scratch};
use damsonyet::{Fate, Outcome};

/// A file of one variable x with these tries and regions, each region in a method of its own.
fn file(range: &str, tries: &[&str], regions: &[&str]) -> String {
    let tries: String = tries.iter().map(|condition| format!("try {condition};\n")).collect();
    let method = |(k, region): (usize, &&str)| format!("method m{k} {{ waituntil {region} }}\n");
    let methods: String = regions.iter().enumerate().map(method).collect();
    format!("monitor m {{ var x = 0 in {range};\nkeep true;\n{tries}{methods}}}\n")
}

/// Sixteen tries of which one falls in each pass.
fn chain() -> String {
    let tries: Vec<String> = (1..=16).map(|k| format!("x != {k}")).collect();
    file("0..16", &tries.iter().map(String::as_str).collect::<Vec<_>>(), &["(x < 16) { x := x + 1; }"])
}

fn files() -> Vec<Vec<u8>> {
    let mut files: Vec<Vec<u8>> =
        ["breaker-guesses/monitor.txt", "refusals/9-weak-try/monitor.txt", "refusals/9-not-reached/monitor-tried.txt"]
            .iter()
            .map(|name| std::fs::read(root().join("examples").join(name)).expect("the file"))
            .collect();
    files.push(chain().into_bytes());
    let example_8 = ["(x == 3) { }", "(true) { if (x == 2) { x := 3; } }"];
    for tries in
        [&["x < 2"][..], &["x != 3"], &["x > 0", "x != 3", "x < 2"], &["true", "true"], &["false"], &["x < 3", "x < 2", "x >= 0 && x <= 3"]]
    {
        files.push(file("0..3", tries, &example_8).into_bytes());
    }
    files.push(file("0..3", &["x <\t2\r\n || x\n>= 002", "!!(((x == 3 || x < 3)))"], &example_8).into_bytes());
    files.push(file("-3..3", &["x <= 0", "x > -3", "x > -1"], &["(x > -2) { x := x - 1; }"]).into_bytes());
    files
}

/// Wide enough that few sentences are broken; blanks as one.
fn one_line(text: &str) -> String {
    text.split_whitespace().collect::<Vec<_>>().join(" ")
}

#[test]
fn words_are_the_fates() {
    let scratch = Scratch::new();
    let mut fallen = 0;
    for bytes in files() {
        let fates = damsonyet::fates(&bytes).expect("accepted, or refused with 9");
        let (outline, verdict) = damsonyet::outline(&bytes).expect("an outline");
        let at = scratch.put("monitor.txt", &bytes);
        for arguments in [["place".as_ref(), at.as_os_str()], ["show".as_ref(), at.as_os_str()]] {
            let output = command().env("COLUMNS", "140").args(arguments).output().expect("the program runs");
            common::assert_tame(&output.stdout);
            assert_eq!(status(&output), i32::from(verdict.is_err()));
            let text = one_line(&stdout(&output));
            let chosen = fates.iter().filter(|fate| **fate == Fate::Chosen).count();
            let many = match chosen {
                0 => format!("Tries: none of {} chosen; the kept condition is keep alone", fates.len()),
                n if n == fates.len() && n > 1 => format!("Tries: all {n} chosen"),
                n => format!("Tries: {n} of {} chosen", fates.len()),
            };
            assert!(text.contains(&many), "{many}: {text}");
            let mut from = text.find("Tries: ").expect("the tries");
            for (k, fate) in fates.iter().enumerate() {
                let condition = one_line(&String::from_utf8_lossy(&bytes[outline.tries[k].clone()]));
                let state = |number: u16| {
                    let state = damsonyet::state_at(&bytes, number.into()).expect("told").expect("a state");
                    let name = |v: usize| String::from_utf8_lossy(&bytes[outline.variables[v].name.clone()]).into_owned();
                    (
                        state.values.iter().enumerate().map(|(v, value)| format!("{} = {value}", name(v))).collect::<Vec<_>>().join(", "),
                        state,
                    )
                };
                let said = match *fate {
                    Fate::Chosen => format!("{k:02X} chosen {condition}"),
                    Fate::FalseAtStart => {
                        format!("{k:02X} false {condition} False at the start values: {}.", state(outline.start as u16).0)
                    }
                    Fate::Broken { pass, region, state: number } => {
                        fallen += 1;
                        let (values, before) = state(number);
                        let Some(Outcome::Ends(to)) = before.after[usize::from(region)] else { panic!("it ends") };
                        let after = state(to).1;
                        let changed = before.values.iter().zip(&after.values).position(|(a, b)| a != b).expect("a change");
                        let becomes = format!("becomes {}", after.values[changed]);
                        let head = format!("{k:02X} broken {condition} Broken in pass {pass} by ");
                        let rest = text[from..].find(&head).map(|at| &text[from + at..]).unwrap_or_else(|| panic!("{head}: {text}"));
                        let sentence = rest[head.len()..].split('.').next().expect("a sentence");
                        let of = format!("(region {region:02X})");
                        assert!(sentence.contains(&of) && sentence.contains(&format!("from state {number} ({values}) ")), "{sentence}");
                        assert_eq!(sentence.contains("had fallen"), pass > 1, "{sentence}");
                        assert!(sentence.contains(&becomes), "{sentence}");
                        head
                    }
                };
                let at = text[from..].find(&said).unwrap_or_else(|| panic!("{said}: {text}"));
                from += at + said.len();
            }
            assert_eq!(text.contains("fall in the next pass"), fates.iter().any(|fate| matches!(fate, Fate::Broken { pass: 2.., .. })));
        }
    }
    assert!(fallen > 40, "{fallen}");
}

#[test]
fn those_that_fell_before_are_named() {
    let text = one_line(&stdout(&panel_reading(&["place", "-"], chain().as_bytes())));
    assert!(text.contains("00 broken x != 1 Broken in pass 1 by m0 (region 00): from state 0 (x = 0) x becomes 1."), "{text}");
    assert!(
        text.contains("0F broken x != 16 Broken in pass 16 by m0 (region 00), once try 0E had fallen: from state 15 (x = 15)"),
        "{text}"
    );
    let two = file("0..3", &["x != 1", "x < 1", "x != 2"], &["(x < 3) { x := x + 1; }"]);
    let text = one_line(&stdout(&panel_reading(&["place", "-"], two.as_bytes())));
    assert!(
        text.contains("Broken in pass 2 by m0 (region 00), once tries 00 and 01 had fallen: from state 1 (x = 1) x becomes 2."),
        "{text}"
    );
}

#[test]
fn check_counts_them() {
    let said = |tries: &[&str]| stdout(&panel_reading(&["check", "-"], file("0..3", tries, &["(true) { x := 0; }"]).as_bytes()));
    assert!(said(&["x < 1", "x > 0", "x < 2"]).ends_with("\n  tries: 2 of 3 chosen (00 and 02)\n"));
    assert!(said(&["x < 1"]).ends_with("\n  tries: 1 of 1 chosen (00)\n"));
    assert!(said(&["x < 1", "true"]).ends_with("\n  tries: all 2 chosen (00 and 01)\n"));
    assert!(said(&["x > 1", "false"]).ends_with("\n  tries: none of 2 chosen\n"));
    assert!(!said(&[]).contains("tries"));
}

/// Files without tries are told as if there were none.
#[test]
fn files_without_tries() {
    for folder in ["examples/box", "examples/breaker", "examples/refusals/9-late-closed", "examples/refusals/8-start-not-kept"] {
        for command in ["check", "place", "show"] {
            let text = stdout(&panel(&[command, &format!("{folder}/monitor.txt")])).to_lowercase();
            assert!(!text.contains("tries:") && !text.contains("'try'") && !text.contains("chosen"), "{folder}: {text}");
        }
        let object = Json::read(&stdout(&panel(&["place", "--json", &format!("{folder}/monitor.txt")])));
        if matches!(object.at("answer").numbers()[0], 0 | 9) {
            assert_eq!((object.at("chosen").number(), object.at("tries").list().len()), (0, 0));
        } else {
            assert_eq!(object.keys(), ["answer"]);
        }
    }
}

#[test]
fn objects_are_the_fates() {
    for bytes in files() {
        let fates = damsonyet::fates(&bytes).expect("told");
        let (outline, _) = damsonyet::outline(&bytes).expect("an outline");
        for command in ["check", "place", "show"] {
            let object = Json::read(&stdout(&panel_reading(&[command, "-", "--json"], &bytes)));
            let bits: i64 = fates.iter().enumerate().filter(|(_, fate)| **fate == Fate::Chosen).map(|(k, _)| 1 << k).sum();
            assert_eq!(object.at("chosen").number(), bits);
            let tries = object.at("tries").list();
            assert_eq!(tries.len(), fates.len());
            for ((tried, fate), span) in tries.iter().zip(&fates).zip(&outline.tries) {
                assert_eq!(tried.at("span").numbers(), [span.start as i64, span.end as i64]);
                assert_eq!(tried.at("condition").text(), one_line(&String::from_utf8_lossy(&bytes[span.clone()])));
                let values = |number: u16| {
                    let state = damsonyet::state_at(&bytes, number.into()).expect("told").expect("a state");
                    state.values.iter().map(|&value| i64::from(value)).collect::<Vec<_>>()
                };
                let common = ["condition", "span", "fate"];
                match *fate {
                    Fate::Chosen => {
                        assert_eq!((tried.at("fate").text(), tried.keys()), ("chosen", common.to_vec()));
                    }
                    Fate::FalseAtStart => {
                        assert_eq!(tried.at("fate").text(), "false");
                        assert_eq!(tried.at("values").numbers(), values(outline.start as u16));
                    }
                    Fate::Broken { pass, region, state } => {
                        assert_eq!(tried.at("fate").text(), "broken");
                        let numbers = ["pass", "region", "state"].map(|key| tried.at(key).number());
                        assert_eq!(numbers, [i64::from(pass), region.into(), state.into()]);
                        assert_eq!(tried.at("values").numbers(), values(state));
                        assert_eq!(tried.at("values_after").numbers(), values(tried.at("after").number() as u16));
                    }
                }
            }
        }
    }
}

/// 9 comes behind the choice: the chosen tries hold where the kept condition is broken, and a further try is a remedy.
#[test]
fn refused_with_9() {
    let broken = "monitor m { var x = 0 in 0..3; keep x < 2; try x < 3; try x < 1; method a { waituntil (true) { x := x + 1; } } }";
    let text = one_line(&stdout(&panel_reading(&["check", "-"], broken.as_bytes())));
    assert!(text.contains("where the condition of 'keep' is false; the chosen tries hold there."), "{text}");
    assert!(text.contains("or add a 'try' that rules it out."), "{text}");
    assert!(text.contains("Tries: 1 of 2 chosen;") && text.contains("01 broken x < 1"), "{text}");
    let none = broken.replace("try x < 3; ", "");
    let text = one_line(&stdout(&panel_reading(&["check", "-"], none.as_bytes())));
    assert!(text.contains("where the kept condition is false."), "{text}");
    assert!(text.contains("Tries: none of 1 chosen; the kept condition is keep alone"), "{text}");
    let start = "monitor m { var x = 0 in 0..3; keep true; try x < 1; method a { waituntil (true) { } } }";
    let scratch = Scratch::new();
    let (at, trace) = (scratch.put("monitor.txt", start.as_bytes()), scratch.put("trace.txt", b""));
    let output = panel(&["run".as_ref(), at.as_os_str(), trace.as_os_str(), "--start=2".as_ref()]);
    let text = one_line(&stdout(&output));
    assert!(text.contains("At state 2 (x = 2) the kept condition (keep and the chosen tries) is false."), "{text}");
}
