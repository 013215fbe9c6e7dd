//! Remainders (document 02, E5): worked out by hand, and as properties of many drawn files.

mod common;
use common::remainders::{told_by, told_by_library, Reading, WRONG};
use common::{answer, both, file, places};
use reference::cases::divided::{divided, is_small, Divided};
use reference::cases::{make_case, Case, Size};
use reference::check::{check_to_15, check_to_8};
use reference::evaluation::{holds, remainder, value};
use reference::grammar::{read, Operand, Remainder, Statement};
use reference::hostile::Bases;
use reference::tokens::{tokens, Token};
use reference::{check, place, points, ranges, tried, Answer, Fate, Monitor, Place, Record};

/// How a run ends, as in the cases made by hand.
fn end(ran: &Result<Record, Answer>) -> String {
    match ran {
        Err(answer) => format!("{} at {}", answer.number, answer.first),
        Ok(record) => {
            let values: Vec<String> = record.values.iter().map(i64::to_string).collect();
            let mut waiters: Vec<(u8, usize, usize)> = Vec::new();
            for (thread, place) in record.places.iter().enumerate() {
                if let Place::Waiting(region) = place {
                    waiters.push((record.turns[thread], thread, *region));
                }
            }
            waiters.sort();
            let waiters = waiters.into_iter().map(|(_, thread, at)| format!(" {thread}@{at}"));
            format!("{}:{}", values.join(","), waiters.collect::<String>())
        }
    }
}

/// What is told of a file and a trace, as in the cases made by hand.
fn told(file: &str, frames: &str) -> String {
    match check(file.as_bytes()) {
        Err(Answer { number: 9, first, second }) => format!("9 in {first} from {second}"),
        Err(answer) => format!("{} at {}", answer.number, answer.first),
        Ok(_) => {
            let table = common::table(file).trim_end().replace('\n', " ");
            let [plain, by_table] = both(file, frames).each_ref().map(end);
            match plain == by_table {
                true => format!("{table}; {plain}"),
                false => format!("{table}; {plain} / {by_table}"),
            }
        }
    }
}

fn by_name(what: &str) -> Divided {
    divided().into_iter().find(|one| one.what == what).expect(what)
}

/// The cases made by hand are told as was worked out; there are enough of them, and of small ones.
#[test]
fn cases_made_for_remainders() {
    let divided = divided();
    for one in &divided {
        let frames = String::from_utf8(one.case.trace.clone()).unwrap();
        let file = String::from_utf8(one.case.monitor.clone()).unwrap();
        assert_eq!(told(&file, &frames), one.told, "{}", one.what);
    }
    let mut names: Vec<&str> = divided.iter().map(|one| one.what).collect();
    names.sort();
    names.dedup();
    assert_eq!(names.len(), divided.len());
    let small = divided.iter().filter(|one| is_small(&one.case)).count();
    assert!(divided.len() >= 24 && small >= 16, "{} {small}", divided.len());
}

/// Names on both sides of `mod` count: pairs of region and guard, counted by hand.
#[test]
fn touched_pairs() {
    for (what, pairs) in [
        // Region 0 assigns y, which no guard names; region 1 x, which guard 0 names.
        ("named on the left", 1),
        ("named as the divisor", 2),
        // Both regions assign x, which both guards name.
        ("named on both sides", 4),
        ("named for nothing", 1),
        ("named as the divisor alone", 2),
        // Region 0 assigns y, which guard 1 names; region 1 x, which guard 0 names.
        ("named on the left alone", 2),
        ("eighths of 64 by 64", 4),
    ] {
        let placed = place(&by_name(what).case.monitor, usize::MAX).unwrap();
        assert_eq!(placed.pairs, pairs, "{what}");
    }
}

/// What becomes of tries beside remainders.
#[test]
fn fates() {
    let broken = |pass, region, state| Fate::Broken { pass, region, state };
    let by_fault = || vec![Fate::Chosen, broken(1, 1, 1)];
    for (what, fates) in [
        // 0 goes to 2, which 3 does not divide; 2 stays.
        ("one of three tries", vec![Fate::Chosen, broken(1, 0, 0), Fate::FalseAtStart]),
        ("the other of two tries", vec![broken(1, 0, 0), Fate::Chosen]),
        // From y 1 region 1 makes y 0; from there region 0 has a fault, and x == 0 stays.
        ("a fault breaks no try", by_fault()),
        ("a fault in an if breaks none", by_fault()),
        ("a fault behind true breaks none", by_fault()),
        ("a fault keeps a state out", vec![Fate::Chosen, broken(1, 2, 1)]),
        ("a try that leaves the fault out", vec![Fate::Chosen, broken(1, 0, 1)]),
        ("states left out by a try", vec![Fate::Chosen]),
    ] {
        assert_eq!(tried(&by_name(what).case.monitor).1, Some(fates), "{what}");
    }
    // Beside 15 there are none.
    assert_eq!(tried(&by_name("a try by 0").case.monitor).1, None);
}

/// Each of them tells some wrong program, unless 4 or 6 is its answer; and each wrong program is
/// told by three of them.
#[test]
fn cases_made_for_remainders_tell_wrong_programs() {
    let mut told = [0; WRONG.len()];
    for one in divided() {
        let by = |reading| told_by(&one.case.monitor, &one.case.trace, reading);
        let right = by(Reading::Right);
        let differ = WRONG.map(|reading| by(reading) != right);
        let is_misread = one.told.starts_with("4 at") || one.told.starts_with("6 at");
        assert!(differ.contains(&true) || is_misread, "{}", one.what);
        for (told, differs) in told.iter_mut().zip(differ) {
            *told += usize::from(differs);
        }
    }
    for (reading, told) in WRONG.iter().zip(told) {
        assert!(told >= 3, "{reading:?}: {told}");
    }
}

/// The program that can read wrongly, read rightly, tells what the library does.
#[test]
fn the_right_reading_is_that_of_the_library() {
    let mut bases = Bases::of(91);
    let small = (0..500).map(|number| make_case(92, number, Size::SMALL));
    let hostile = (0..300).map(|number| bases.input(number));
    let by_hand = divided().into_iter().map(|one| one.case);
    for Case { monitor, trace } in small.chain(hostile).chain(by_hand) {
        if check_to_15(&monitor).is_ok_and(|(_, f)| ranges::count_of_states(&f.variables) > 300) {
            continue;
        }
        let right = told_by(&monitor, &trace, Reading::Right);
        let file = String::from_utf8_lossy(&monitor);
        assert_eq!(right, told_by_library(&monitor, &trace), "{file}");
    }
}

/// Of every left side and divisor that can be written: the value lies from 0 to the divisor less
/// one and differs from the left side by a multiple of the divisor; there is none below 1.
#[test]
fn every_remainder() {
    for divisor in -999_i64..=999 {
        for left in (-999..=999).step_by(if divisor.abs() < 130 { 1 } else { 37 }) {
            let [left_side, by] = [left, divisor].map(Operand::Integer);
            let of = Remainder { left: left_side, place: 0, divisor: by };
            match remainder(&of, &[], &[]) {
                None => assert!(divisor < 1),
                Some(value) => {
                    assert!(divisor >= 1 && 0 <= value && value < divisor);
                    assert_eq!((left - value) % divisor, 0);
                }
            }
        }
    }
}

/// The value of an expression, as it is read, where x is 0.
fn value_of(expression: &str) -> Option<i64> {
    let method = format!("method m {{ waituntil (true) {{ x := {expression}; }} }}");
    let file = file("var x = 0 in 0..0;", "true", &method);
    let tree = read(&tokens(file.as_bytes()).unwrap(), file.len()).unwrap();
    match &tree.methods[0][0].body[0] {
        Statement::Assignment { expression, .. } => value(expression, &tree.variables, &[0]),
        Statement::If { .. } => unreachable!(),
    }
}

#[test]
fn expressions_by_hand() {
    for (expression, wanted) in [
        ("-7 mod 3", Some(2)),
        ("1 - -7 mod 3", Some(-1)),
        ("1 - 7 mod 3", Some(0)),
        ("7 mod -2", None),
        ("x mod -2", None),
        ("-999 mod 999", Some(0)),
        ("-999 mod 998", Some(997)),
        ("999 mod 1", Some(0)),
        ("2 + 7 mod 4 - 1", Some(4)),
        ("10 - 7 mod 4 - 7 mod 4", Some(4)),
        ("1 mod 0 - 1 mod 0", None),
        ("x mod x", None),
        ("0 + 1 mod 2 + x mod 0", None),
    ] {
        assert_eq!(value_of(expression), wanted, "{expression}");
    }
}

/// The truth of a condition in which x is 1 and y 0.
fn truth(condition: &str) -> Option<bool> {
    let variables = "var x = 1 in 0..1; var y = 0 in 0..1;";
    let file = file(variables, condition, "method m { waituntil (true) { } }");
    let tree = read(&tokens(file.as_bytes()).unwrap(), file.len()).unwrap();
    holds(&tree.keep, &tree.variables, &[1, 0])
}

/// Both sides of `&&` and `||` are evaluated, and what lacks a value makes all around it lack one.
#[test]
fn conditions_by_hand() {
    for (condition, wanted) in [
        ("3 mod x == 0", Some(true)),
        ("x mod y == 0", None),
        ("0 == x mod y", None),
        ("!(x mod y == 0)", None),
        ("!!x mod y == 0", None),
        ("false && 1 mod 0 == 0", None),
        ("1 mod 0 == 0 && false", None),
        ("true || 1 mod 0 == 0", None),
        ("1 mod 0 == 0 || true", None),
        ("y > 0 && x mod y == 0", None),
        ("(true || (false && (x mod y < 1))) && false", None),
        ("x mod y == x mod y", None),
        ("x mod 2 == 1 && !y mod 2 == 1", Some(true)),
        ("1 + y mod 2 != x || x mod x > 0", Some(false)),
    ] {
        assert_eq!(truth(condition), wanted, "{condition}");
    }
}

/// The byte that 15 names, from the tokens and the declared ranges alone: the first `mod` in keep,
/// a try or a guard whose divisor is a number below 1, or a variable whose lowest value is.
fn lacking_by_tokens(tokens: &[Token]) -> Option<usize> {
    let text = |at: usize| String::from_utf8(tokens[at].text.clone()).unwrap();
    let integer = |at: usize| match tokens[at].is("-") {
        true => -text(at + 1).parse::<i64>().unwrap(),
        false => text(at).parse::<i64>().unwrap(),
    };
    let lowest = |name: &str| {
        let at = (1..tokens.len()).find(|at| tokens[at - 1].is("var") && text(*at) == name);
        let range = (at.unwrap()..).find(|at| tokens[*at].is("in")).unwrap();
        integer(range + 1)
    };
    // A body begins where the bracket of a guard is closed, and ends at the next region or method.
    let mut depth = 0;
    let mut in_condition = false;
    for (at, token) in tokens.iter().enumerate() {
        if token.is("keep") || token.is("try") || token.is("waituntil") {
            in_condition = true;
            depth = 0;
        }
        depth += i64::from(token.is("(")) - i64::from(token.is(")"));
        if token.is(";") || token.is("{") && depth == 0 {
            in_condition = false;
        }
        if in_condition && token.is("mod") {
            let divisor = match tokens[at + 1].is_name() {
                true => lowest(&text(at + 1)),
                false => integer(at + 1),
            };
            if divisor < 1 {
                return Some(token.place);
            }
        }
    }
    None
}

/// How often things were met.
#[derive(Default, Debug)]
struct Met {
    files: usize,
    accepted: usize,
    /// Accepted files with `mod`.
    with_mod: usize,
    /// Files refused with 15.
    lacking: usize,
    /// Files refused with 9 for a missing value.
    faults: usize,
}

/// On files that the checks 1 to 7 pass, 15 is told where the tokens say; and of a file refused
/// with it nothing else is.
fn lacks_where_the_tokens_say(monitor: &[u8], met: &mut Met) {
    let mut expected = None;
    let told = answer(monitor);
    if let Ok(tokens) = tokens(monitor) {
        let tree = read(&tokens, monitor.len());
        let passes = tree.is_ok_and(|tree| ranges::ranges(&tree.variables).is_ok());
        if passes && ![3, 5, 6].contains(&told.0) {
            expected = lacking_by_tokens(&tokens);
        }
        if told.0 == 0 {
            met.accepted += 1;
            let mods = tokens.iter().filter(|token| token.is("mod")).count();
            met.with_mod += usize::from(mods > 0);
        }
    }
    met.files += 1;
    match expected {
        Some(place) => {
            assert_eq!(told, (15, place, 0), "{}", String::from_utf8_lossy(monitor));
            met.lacking += 1;
            assert!(check_to_8(monitor).is_err() && tried(monitor).1.is_none());
            let mut buffer = [0xA5; 49];
            let given = points(monitor, b"", 0, &mut buffer);
            assert_eq!((places(given.plain), given.count, buffer), (told, 0, [0xA5; 49]));
        }
        None => assert_ne!(told.0, 15, "{}", String::from_utf8_lossy(monitor)),
    }
    if told.0 == 9 {
        let monitor = check_to_8(monitor).unwrap();
        met.faults += usize::from(meets_a_missing_value(&monitor, told.1, told.2));
    }
}

/// Whether a body meets a missing value from a state, before it leaves a range.
fn meets_a_missing_value(monitor: &Monitor, region: usize, state: usize) -> bool {
    let mut values = monitor.state_values(state);
    let mut left: Vec<&Statement> = monitor.regions[region].body.iter().rev().collect();
    while let Some(statement) = left.pop() {
        match statement {
            Statement::Assignment { name, expression } => {
                let Some(value) = value(expression, &monitor.variables, &values) else {
                    return true;
                };
                let at = monitor.variables.iter().position(|v| v.name == *name).unwrap();
                values[at] = value;
                if !monitor.variables[at].in_range(value) {
                    return false;
                }
            }
            Statement::If { condition, then, otherwise } => {
                let Some(truth) = holds(condition, &monitor.variables, &values) else {
                    return true;
                };
                left.extend(if truth { then } else { otherwise }.iter().rev());
            }
        }
    }
    false
}

#[test]
fn refusal_15_by_the_tokens() {
    let mut met = Met::default();
    for number in 0..600 {
        lacks_where_the_tokens_say(&make_case(93, number, Size::SMALL).monitor, &mut met);
    }
    for number in 0..200 {
        lacks_where_the_tokens_say(&make_case(94, number, Size::FULL).monitor, &mut met);
    }
    assert!(3 * met.with_mod >= met.accepted, "{met:?}");
    assert!(25 * met.lacking >= met.files && 150 * met.faults >= met.files, "{met:?}");
    let mut bases = Bases::of(95);
    let mut met = Met::default();
    for number in 0..1_000 {
        lacks_where_the_tokens_say(&bases.input(number).monitor, &mut met);
    }
    assert!(4 * met.with_mod >= met.accepted, "{met:?}");
    assert!(70 * met.lacking >= met.files && 200 * met.faults >= met.files, "{met:?}");
}
