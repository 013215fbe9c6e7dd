//! Tries and the choice among them (document 02, E1): files worked out by hand, every subset of
//! the tries of many drawn files judged by the document's sentence, and each fate by the text at
//! the head of `src/tries.rs`.

mod common;
use common::{answer, byte_of, file, places, regions, table, BOX};
use reference::cases::draws::Draws;
use reference::cases::monitors::any_accepted;
use reference::cases::tries::add_tries;
use reference::cases::words::{laid_out, Layout};
use reference::cases::{made, make_case, Size};
use reference::check::check_to_8;
use reference::hostile::Bases;
use reference::{place, run, tried, Fate, Machine, Monitor};

use Fate::{Chosen, FalseAtStart};

fn broken(pass: usize, region: usize, state: usize) -> Fate {
    Fate::Broken { pass, region, state }
}

/// A file with x in 0..3 from 0, this kept condition, these tries, and regions that each make a
/// method.
fn with(keep: &str, tries: &[&str], all: &[&str]) -> String {
    regions(&[&[keep], tries].concat().join("; try "), all)
}

/// Wants these fates beside this answer; and, where the file is accepted, that placing reports
/// those that are chosen.
fn wants(file: &str, verdict: (u8, usize, usize), fates: &[Fate]) {
    let (given, told) = tried(file.as_bytes());
    assert_eq!((places(given), told.as_deref()), (verdict, Some(fates)), "{file}");
    let bits = fates.iter().rev().fold(0, |bits, fate| 2 * bits + u16::from(*fate == Chosen));
    match place(file.as_bytes(), usize::MAX) {
        Ok(placed) => assert_eq!((placed.chosen, verdict), (bits, (0, 0, 0)), "{file}"),
        Err(answer) => assert_eq!((answer.number, answer.first, answer.second), verdict, "{file}"),
    }
}

const GOOD: (u8, usize, usize) = (0, 0, 0);
const UP: &str = "waituntil (x < 3) { x := x + 1; }";
const STAY: &str = "waituntil (true) { }";

#[test]
fn no_tries() {
    wants(BOX, GOOD, &[]);
    wants(&with("true", &[], &[UP]), GOOD, &[]);
    assert_eq!(place(BOX.as_bytes(), 18).unwrap().chosen, 0);
}

#[test]
fn each_reason() {
    let all = ["true", "false", "x == 0", "x == 1", "x >= 0", "x != 3"];
    let fates = [Chosen, FalseAtStart, broken(1, 0, 0), FalseAtStart, Chosen];
    wants(&with("true", &all, &[UP]), GOOD, &[&fates[..], &[broken(2, 0, 2)]].concat());
    // None is broken where no body changes anything.
    let fates = [Chosen, FalseAtStart, Chosen, FalseAtStart, Chosen, Chosen];
    wants(&with("true", &all, &[STAY]), GOOD, &fates);
    // The same condition twice has the same fate twice.
    wants(&with("true", &["x < 2"; 3], &[UP]), GOOD, &[broken(1, 0, 1); 3]);
}

/// Bits go from the first try, the lowest, to the sixteenth.
#[test]
fn bits_of_the_chosen() {
    let chosen = |number: usize| {
        let tries: Vec<&str> =
            (0..16).map(|at| if at == number { "true" } else { "x == 0" }).collect();
        place(with("true", &tries, &[UP]).as_bytes(), usize::MAX).unwrap().chosen
    };
    for number in 0..16 {
        assert_eq!(chosen(number), 1 << number);
    }
    let all = with("true", &["true"; 16], &[UP]);
    assert_eq!(place(all.as_bytes(), 0).unwrap().chosen, 0xFFFF);
}

/// x is changed only where y has been, and y only where x has been.
#[test]
fn two_that_need_each_other() {
    let of = |tries: &str, more: &str| {
        file(
            "var x = 0 in 0..1; var y = 0 in 0..1;",
            &format!("true{tries}"),
            &format!(
                "method a {{ waituntil (true) {{ if (y == 1) {{ x := 1; }} }} }} \
                 method b {{ waituntil (true) {{ if (x == 1) {{ y := 1; }} }} }} {more}"
            ),
        )
    };
    wants(&of("; try x == 0; try y == 0", ""), GOOD, &[Chosen, Chosen]);
    wants(&of("; try y == 0; try x == 0", ""), GOOD, &[Chosen, Chosen]);
    // Neither stays without the other. State 1 is y alone, state 2 is x alone.
    wants(&of("; try x == 0", ""), GOOD, &[broken(1, 0, 1)]);
    wants(&of("; try y == 0", ""), GOOD, &[broken(1, 1, 2)]);
    // Where something else breaks the one, the other falls a pass later.
    let more = "method c { waituntil (y == 0) { y := 1; } }";
    wants(&of("; try x == 0; try y == 0", more), GOOD, &[broken(2, 0, 1), broken(1, 2, 0)]);
    wants(&of("; try y == 0; try x == 0", more), GOOD, &[broken(1, 2, 0), broken(2, 0, 1)]);
}

#[test]
fn one_that_needs_the_next() {
    let fates = [broken(1, 0, 0), broken(2, 0, 1), broken(3, 0, 2)];
    for tries in [["x != 1", "x != 2", "x != 3"], ["x < 1", "x < 2", "x < 3"]] {
        wants(&with("true", &tries, &[UP]), GOOD, &fates);
        let [first, second, third] = tries;
        let swapped = [fates[1], fates[2], fates[0]];
        wants(&with("true", &[second, third, first], &[UP]), GOOD, &swapped);
    }
    // The first two do without the third, which x is never brought to.
    let two = "waituntil (x < 2) { x := x + 1; }";
    wants(
        &with("true", &["x != 3", "x != 2", "x != 1"], &[two]),
        GOOD,
        &[Chosen, fates[1], fates[0]],
    );
}

#[test]
fn sixteen_passes() {
    for reversed in [false, true] {
        let mut values: Vec<usize> = (1..=16).collect();
        if reversed {
            values.reverse();
        }
        let tries: String = values.iter().map(|value| format!(" try x != {value};")).collect();
        let file = format!(
            "monitor m {{ var x = 0 in 0..16; keep true;{tries} \
             method a {{ {STAY} }} method b {{ waituntil (x < 16) {{ x := x + 1; }} }} }}"
        );
        let fates: Vec<Fate> = values.iter().map(|value| broken(*value, 1, value - 1)).collect();
        wants(&file, GOOD, &fates);
    }
}

/// All that a pass breaks is dropped at its end: what needs them falls in the next.
#[test]
fn dropped_together() {
    // `x < 2` needs `x == 0`, which stands before or behind it and falls in pass 1.
    let fates = [broken(1, 0, 0), broken(2, 0, 1)];
    wants(&with("true", &["x == 0", "x < 2"], &[UP]), GOOD, &fates);
    wants(&with("true", &["x < 2", "x == 0"], &[UP]), GOOD, &[fates[1], fates[0]]);
    // Two in one pass, at different regions.
    let two = ["waituntil (x == 0) { x := 1; }", "waituntil (x == 0) { x := 2; }"];
    let fates = [broken(1, 1, 0), broken(1, 0, 0)];
    wants(&with("true", &["x != 2", "x != 1"], &two), GOOD, &fates);
}

#[test]
fn the_lowest_region_and_then_the_lowest_state() {
    let lower = ["waituntil (x == 2) { x := 3; }", "waituntil (x < 2) { x := 3; }"];
    wants(&with("true", &["x < 3"], &lower), GOOD, &[broken(1, 0, 2)]);
    wants(&with("true", &["x < 3"], &lower[1..]), GOOD, &[broken(1, 0, 0)]);
    // A state that was left out in pass 1 does not count for it, nor does one left out still.
    wants(&with("true", &["x < 3", "x != 2"], &lower), GOOD, &[broken(1, 1, 0), Chosen]);
}

/// The sixteenth region and the last state of 4,096 are asked as the others.
#[test]
fn the_last_region_and_the_last_state() {
    let two = format!("{STAY} {STAY}");
    let last = format!("{STAY} {UP}");
    let sixteen = [[two.as_str(); 7].as_slice(), &[&last]].concat();
    let fates = [broken(1, 15, 0), broken(2, 15, 1), Chosen];
    wants(&with("true", &["x != 1", "x != 2", "x < 4"], &sixteen), GOOD, &fates);
    let square = |guard: &str| {
        file(
            "var x = 0 in 0..63; var y = 0 in 0..63;",
            "true; try x > 0 || y < 63; try x < 64",
            &format!("method a {{ waituntil ({guard}) {{ x := 0; }} }}"),
        )
    };
    wants(&square("x == 63 && y == 63"), GOOD, &[broken(1, 0, 4095), Chosen]);
    wants(&square("x == 63 && y == 62"), GOOD, &[Chosen, Chosen]);
}

/// Start values that are not the lowest.
#[test]
fn from_another_state_than_the_lowest() {
    let down = "method a { waituntil (x > 0) { x := x - 1; } }";
    let tries = "true; try x == 2; try x != 0; try x < 2; try x != 1; try x < 3; try x > 1";
    let file = file("var x = 2 in 0..3;", tries, down);
    let fall = broken(1, 0, 2);
    wants(&file, GOOD, &[fall, broken(2, 0, 1), FalseAtStart, fall, Chosen, fall]);
}

/// keep and the guard narrow what a try must bear.
#[test]
fn only_kept_states_where_the_guard_holds_bind() {
    let three = ["waituntil (x == 2) { x := 3; }"];
    wants(&with("true", &["x < 3"], &three), GOOD, &[broken(1, 0, 2)]);
    wants(&with("x != 2", &["x < 3"], &three), GOOD, &[Chosen]);
    wants(&with("true", &["x < 3"], &["waituntil (x == 3) { x := 3; }"]), GOOD, &[Chosen]);
    // Whether a state is reached does not matter.
    wants(&with("true", &["x != 3"], &three), GOOD, &[broken(1, 0, 2)]);
}

/// Of the body only what holds after it counts, not what holds midway.
#[test]
fn midway_does_not_bind() {
    let midway = ["waituntil (x == 0) { x := 1; x := 0; }"];
    wants(&with("true", &["x == 0"], &midway), GOOD, &[Chosen]);
}

/// A body that leaves a range frees the choice, wherever it does; the file is refused with 9
/// then, since the state is kept.
#[test]
fn a_fault_frees_the_choice() {
    let tries = ["x == 0", "x != 1", "x < 2"];
    for body in ["x := 1; x := 4;", "x := 4; x := 1;", "x := x - 1;", "x := 3; x := 4; x := 0;"] {
        let faults = format!("waituntil (x == 0) {{ {body} }}");
        wants(&with("true", &tries, &[&faults]), (9, 0, 0), &[Chosen; 3]);
        // Another region binds it all the same.
        let [one, other] = [broken(1, 1, 0), broken(2, 1, 1)];
        let up = "waituntil (x < 2) { x := x + 1; }";
        wants(&with("true", &tries, &[&faults, up]), (9, 0, 0), &[one, one, other]);
    }
}

/// A body that ends with keep false binds the choice as any other.
#[test]
fn an_end_with_keep_false_binds_the_choice() {
    let out = "waituntil (x == 0) { x := 3; }";
    let tries = ["x == 0", "x < 2", "x != 1"];
    let fates = [broken(1, 0, 0), broken(1, 0, 0), Chosen];
    wants(&with("x < 3", &tries, &[out]), (9, 0, 0), &fates);
    wants(&with("true", &tries, &[out]), GOOD, &fates);
    // From there nothing binds: keep does not hold.
    let on = "waituntil (x == 3) { x := 1; }";
    wants(&with("x < 3", &tries, &[out, on]), (9, 0, 0), &fates);
    wants(&with("true", &tries, &[out, on]), GOOD, &[fates[0], fates[1], broken(2, 1, 3)]);
}

/// 8 comes from keep alone, and its place is that of `keep`.
#[test]
fn refusal_8_is_about_keep_alone() {
    wants(&with("x == 0", &["x == 1", "false"], &[STAY]), GOOD, &[FalseAtStart; 2]);
    let file = with("x == 1", &["x == 1", "true"], &[STAY]);
    assert_eq!(answer(&file), (8, byte_of(&file, "keep"), 0));
    assert_eq!(tried(file.as_bytes()).1, None);
}

/// 9 speaks of keep and the chosen ones together.
#[test]
fn refusal_9_with_the_chosen_ones_in_it() {
    let over = "waituntil (x == 3) { x := 4; }";
    let two = "waituntil (x < 2) { x := x + 1; }";
    wants(&with("true", &[], &[over, two]), (9, 0, 3), &[]);
    wants(&with("true", &["x < 3"], &[over, two]), GOOD, &[Chosen]);
    wants(&with("true", &["x < 3"], &[over, UP]), (9, 0, 3), &[broken(1, 1, 2)]);
    // Keep false after a body, from a state that is left out or not.
    let out = "waituntil (x == 2) { x := 3; }";
    wants(&with("x < 3", &[], &[out, two]), (9, 0, 2), &[]);
    wants(&with("x < 3", &["x < 2"], &[out, STAY]), GOOD, &[Chosen]);
    wants(&with("x < 3", &["x < 2"], &[out, two]), (9, 0, 2), &[broken(1, 1, 1)]);
    // Of two faults the one that is left out is passed over.
    let faults = "waituntil (x != 1) { x := x + 4; }";
    wants(&with("x > 0 || x == 0", &["x != 2"], &[STAY, faults]), (9, 1, 0), &[Chosen]);
    let faults = "waituntil (x > 1) { x := x + 4; }";
    wants(&with("true", &["x != 2"], &[STAY, faults]), (9, 1, 3), &[Chosen]);
    // What 9 refuses has no chosen bits, and 10 neither.
    let good =
        with("true", &["true"], &["waituntil (x == 0) { x := 1; }", "waituntil (x == 1) { }"]);
    assert_eq!(places(place(good.as_bytes(), 8)), (10, 0, 0));
    assert_eq!(place(good.as_bytes(), 9).unwrap().chosen, 1);
}

#[test]
fn refusal_5_names_the_first_token_past_its_limit() {
    let of = |variables: usize, tries: usize, methods: usize| {
        let variables: String = (0..variables).map(|n| format!("var v{n} = 0 in 0..0; ")).collect();
        let tries: String = (0..tries).map(|n| format!("; try v0 < {n}")).collect();
        let methods: String = (0..methods).map(|n| format!("method m{n} {{ {STAY} }} ")).collect();
        file(&variables, &format!("true{tries}"), &methods)
    };
    let refused = |file: String, token: &str| {
        assert_eq!(answer(&file), (5, byte_of(&file, token), 0), "{file}");
    };
    assert_eq!(answer(of(6, 16, 8)), GOOD);
    refused(of(1, 17, 1), "try v0 < 16");
    refused(of(6, 18, 8), "try v0 < 16");
    refused(of(7, 17, 9), "var v6");
    refused(of(6, 17, 9), "try v0 < 16");
    refused(of(6, 16, 9), "method m8");
    // 4 comes before it, and 6 behind it.
    let bad = of(1, 17, 1).replace("method m0", "method");
    assert_eq!(answer(&bad).0, 4);
    refused(of(1, 17, 1).replace("v0 < 3;", "z < 3;"), "try v0 < 16");
}

#[test]
fn where_tries_may_stand() {
    let good = with("true", &["x < 4"], &[UP, STAY]);
    assert_eq!(answer(&good), GOOD);
    let refused = |place: &str, text: &str, at: &str| {
        let file = good.replacen(place, text, 1);
        assert_eq!(answer(&file), (4, byte_of(&file, at), 0), "{file}");
    };
    refused("keep", "try true; keep", "try true");
    refused("var", "try true; var", "try true");
    refused("monitor", "try true; monitor", "try true");
    refused("method m1", "try true; method m1", "try true");
    refused("waituntil", "try true; waituntil", "try true");
    refused("x := x", "try true; x := x", "try true");
    refused("} } }", "} } try true; }", "try true");
    refused("method m0", "keep true; method m0", "keep true; method");
    refused("keep true;", "keep true", "try");
    // Nothing behind it, no semicolon, no condition, two of them.
    refused("try x < 4;", "try ;", "; method");
    refused("try x < 4;", "try x < 4", "method");
    refused("try x < 4;", "try x;", "; method");
    refused("try x < 4;", "try (x < 4;", "; method");
    refused("try x < 4;", "try x < 4; x < 4;", "x < 4; method");
    refused("try x < 4;", "try try x < 4;", "try x < 4");
    refused("try x < 4;", "try := x < 4;", ":= x < 4");
    let end = "monitor m { var x = 0 in 0..1; keep true; try ";
    assert_eq!(answer(end), (4, end.len(), 0));
    // None, and between them blanks or none.
    assert_eq!(answer(good.replace("try x < 4;", "")), GOOD);
    assert_eq!(answer(good.replace("try x < 4;", "try(x<4);try\n!x>4;")), GOOD);
}

#[test]
fn try_is_reserved() {
    let good = with("true", &["x < 4"], &[UP, STAY]);
    for (from, to, at) in [
        ("monitor m", "monitor try", "try {"),
        ("var x", "var try", "try ="),
        ("method m0", "method try", "try {"),
        ("x := x", "try := x", "try :="),
        ("x := x", "x := try", "try +"),
        ("(x < 3)", "(try < 3)", "try < 3"),
    ] {
        let file = good.replacen(from, to, 1);
        assert_eq!(answer(&file), (4, byte_of(&file, at), 0), "{file}");
    }
    for name in ["Try", "TRY", "tries", "try_", "try1", "tr", "ttry"] {
        assert_eq!(answer(good.replace('x', name).replace("m1", name)), GOOD, "{name}");
    }
}

#[test]
fn names_in_tries_are_uses() {
    let good = with("true", &["x < 4", "x == 0 || 1 + x - x == 1"], &[UP, STAY]);
    assert_eq!(answer(&good), GOOD);
    let refused = |from: &str, to: &str, at: &str| {
        let file = good.replacen(from, to, 1);
        assert_eq!(answer(&file), (6, byte_of(&file, at), 0), "{file}");
    };
    refused("x < 4", "z < 4", "z < 4");
    refused("x < 4", "4 > m", "m;");
    refused("x < 4", "m1 > 4", "m1 > 4");
    refused("- x == 1", "- X == 1", "X == 1");
    // In file order with the others.
    let both = good.replace("x < 4", "z < 4").replace("x := x", "y := x");
    assert_eq!(answer(&both), (6, byte_of(&both, "z < 4"), 0));
    let both = good.replace("x < 4", "z < 4").replace("keep true", "keep y == y");
    assert_eq!(answer(&both), (6, byte_of(&both, "y == y"), 0));
    // A try is neither guard nor region: the table counts as without it.
    let guards = ["waituntil (x == 1) { x := 0; }", "waituntil (x == 0) { x := 1; }"];
    assert_eq!(table(&with("true", &["x < 2"], &guards)), table(&with("true", &[], &guards)));
    assert_eq!(table(&with("true", &["x == 1"], &guards)), "00010100\n01000100\n");
}

/// 11 where a chosen try does not hold; a dropped one leaves the state.
#[test]
fn start_states_that_the_chosen_ones_leave_out() {
    let file = with("x != 3", &["x != 2", "x == 0"], &["waituntil (x == 0) { x := 1; }"]);
    wants(&file, GOOD, &[Chosen, broken(1, 0, 0)]);
    for machine in [Machine::Plain, Machine::Table] {
        let from = |start| run(file.as_bytes(), b"", start, machine);
        assert_eq!(from(1).unwrap().values, [1]);
        assert_eq!(places(from(2)), (11, 0, 0));
        assert_eq!(places(from(3)), (11, 0, 0));
    }
}

/// Document 01's example 8 with a try in the place of keep.
#[test]
fn a_chosen_try_shortens_the_table() {
    let all = ["waituntil (x == 3) { }", "waituntil (true) { if (x == 2) { x := 3; } }"];
    let of = |tries: &[&str]| table(&with("true", tries, &all));
    assert_eq!(of(&[]), "01000001\n");
    assert_eq!(of(&["x < 2"]), "");
    assert_eq!(of(&["x < 3"]), "01000001\n");
    assert_eq!(of(&["x == 0", "x != 2"]), "");
    assert_eq!(of(&["x != 2"]), "");
    // Unconditional and a signal by a try.
    let all = [
        "waituntil (x == 0) { x := 2; }",
        "waituntil (x > 1) { if (x == 2) { x := 0; } else { x := 2; } }",
    ];
    assert_eq!(table(&with("true", &[], &all)), "00010101\n01000000\n");
    assert_eq!(table(&with("true", &["x < 3"], &all)), "00010100\n01000100\n");
}

// What the document says of a set, and what the text says of the passes, asked of each state anew.

fn holds_all(monitor: &Monitor, set: u16, values: &[i64]) -> bool {
    (0..monitor.tries.len())
        .filter(|number| set >> number & 1 == 1)
        .all(|number| monitor.try_holds(number, values))
}

/// The values after each region's body, from each state where keep, a set and the region's
/// guard hold, and whose body stays in range; with the region and the state.
fn after_bodies(monitor: &Monitor, set: u16) -> Vec<(usize, usize, Vec<i64>)> {
    let mut after = Vec::new();
    for (region, of) in monitor.regions.iter().enumerate() {
        for state in 0..monitor.count_of_states() {
            let values = monitor.state_values(state);
            let counts = monitor.keep_holds(&values)
                && holds_all(monitor, set, &values)
                && monitor.guard_holds(of.guard, &values);
            if counts {
                after.extend(monitor.after_body(region, &values).map(|end| (region, state, end)));
            }
        }
    }
    after
}

/// Whether a set will do.
fn will_do(monitor: &Monitor, set: u16) -> bool {
    holds_all(monitor, set, &monitor.start_values())
        && after_bodies(monitor, set).iter().all(|(.., values)| holds_all(monitor, set, values))
}

/// Every subset is judged: sets that will do make one that will do, and the chosen one is that
/// of them all.
fn is_the_largest(monitor: &Monitor) -> usize {
    let doing: Vec<u16> =
        (0..1 << monitor.tries.len()).filter(|set| will_do(monitor, *set)).collect();
    for one in &doing {
        for other in &doing {
            assert!(doing.contains(&(one | other)));
        }
    }
    let largest = doing.iter().fold(0, |all, set| all | set);
    assert_eq!(monitor.chosen(), largest);
    assert!(doing.contains(&largest));
    doing.len()
}

/// Every pass is gone through again, and each try asked.
fn has_these_fates(monitor: &Monitor) {
    let falls_in = |number: usize| match monitor.fates[number] {
        Fate::Broken { pass, .. } => pass,
        Chosen => usize::MAX,
        FalseAtStart => 0,
    };
    let tries = 0..monitor.tries.len();
    assert_eq!(monitor.fates.len(), tries.len());
    for number in tries.clone() {
        let at_start = monitor.try_holds(number, &monitor.start_values());
        assert_eq!(at_start, monitor.fates[number] != FalseAtStart);
    }
    let last = tries.clone().map(falls_in).filter(|pass| *pass != usize::MAX).max().unwrap_or(0);
    // In each pass up to the last something falls, and behind it nothing.
    for pass in 1..=last + 1 {
        let set = tries.clone().filter(|number| falls_in(*number) >= pass);
        let bits: u16 = set.clone().map(|number| 1 << number).sum();
        let after = after_bodies(monitor, bits);
        for number in set {
            let first = after.iter().find(|(.., values)| !monitor.try_holds(number, values));
            let told = first.map(|(region, state, _)| broken(pass, *region, *state));
            match falls_in(number) == pass {
                true => assert_eq!(told, Some(monitor.fates[number])),
                false => assert_eq!(told, None),
            }
        }
        assert_eq!(tries.clone().any(|number| falls_in(number) == pass), pass <= last);
    }
}

/// Drawn files that pass the checks 1 to 8, refused with 9 or not, all with tries.
fn drawn(seed: u64, count: usize, size: Size) -> Vec<Monitor> {
    let mut drawn = Vec::new();
    for case in 0.. {
        let mut draws = Draws::of(seed, case);
        let mut sketch = any_accepted(&mut draws, size).sketch;
        if sketch.tries.is_empty() || draws.chance(30) {
            add_tries(&mut draws, size, &mut sketch);
        }
        let words = sketch.words(&mut draws);
        drawn.extend(check_to_8(&laid_out(&mut draws, &words, Layout::Single)));
        if drawn.len() == count {
            break;
        }
    }
    drawn
}

#[test]
fn the_chosen_set_is_the_largest_of_all_subsets() {
    let small = drawn(41, 1_000, Size::SMALL);
    let wide = Size { states: 60, variables: 3, methods: 3, regions: 6, ..Size::FULL };
    let full = drawn(42, 150, wide).into_iter().filter(|monitor| monitor.tries.len() <= 8);
    let [mut files, mut doing, mut dropped, mut some] = [0; 4];
    for monitor in small.into_iter().chain(full) {
        files += 1;
        doing += is_the_largest(&monitor);
        let chosen = monitor.chosen().count_ones() as usize;
        dropped += usize::from(chosen < monitor.tries.len());
        some += usize::from(chosen > 0);
    }
    assert!(files > 1_000 && doing > 2 * files, "{files} {doing}");
    assert!(3 * dropped > files && 3 * some > files, "{dropped} {some} {files}");
}

#[test]
fn fates_are_those_of_the_text() {
    let mut bases = Bases::of(6);
    let files = (0..200)
        .map(|number| make_case(23, number, Size::FULL))
        .chain((0..400).map(|number| bases.input(number)))
        .chain(made::made().into_iter().map(|made| made.case))
        .map(|case| case.monitor);
    let cases: Vec<Monitor> = files.filter_map(|file| check_to_8(&file).ok()).collect();
    let mut passes = [0; 17];
    for monitor in drawn(43, 1_000, Size::SMALL).iter().chain(&cases) {
        has_these_fates(monitor);
        for fate in &monitor.fates {
            if let Fate::Broken { pass, .. } = fate {
                passes[*pass] += 1;
            }
        }
    }
    assert!(passes[1] > 400 && passes[2] > 100 && passes[3] > 20 && passes[16] > 0, "{passes:?}");
}

/// Of a file without its dropped tries, and with the chosen ones joined to keep, the answers,
/// tables and states are the same.
#[test]
fn the_chosen_ones_count_as_keep() {
    let mut seen = 0;
    for case in 0..400 {
        let mut draws = Draws::of(44, case);
        let mut sketch = any_accepted(&mut draws, Size::SMALL).sketch;
        add_tries(&mut draws, Size::SMALL, &mut sketch);
        let file_of = |draws: &mut Draws, sketch: &reference::cases::monitors::Sketch| {
            let words = sketch.words(draws);
            laid_out(draws, &words, Layout::Single)
        };
        let one = file_of(&mut draws, &sketch);
        let (verdict, Some(fates)) = tried(&one) else { continue };
        let mut joined = sketch.clone();
        joined.tries.clear();
        let bracketed = |words: &[String]| [&["(".into()], words, &[")".into()]].concat();
        joined.keep = bracketed(&sketch.keep);
        for (condition, _) in sketch.tries.iter().zip(&fates).filter(|(_, fate)| **fate == Chosen) {
            joined.keep.push("&&".into());
            joined.keep.extend(bracketed(condition));
        }
        let other = file_of(&mut draws, &joined);
        assert_eq!(tried(&other), (verdict, Some(Vec::new())));
        let table = |file: &[u8]| place(file, usize::MAX).map(|placed| placed.table);
        assert_eq!(table(&one), table(&other));
        for start in 0..=check_to_8(&one).unwrap().count_of_states() {
            let run = |file: &[u8]| run(file, b"000001\n", start, Machine::Table);
            assert_eq!(run(&one), run(&other));
        }
        seen += fates.len();
    }
    assert!(seen > 400, "{seen}");
}
