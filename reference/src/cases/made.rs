//! Cases made by hand for tries (document 02, E1).

use super::Case;
use crate::check::check_to_8;
use crate::limits::{MOST_METHODS, MOST_TRIES, MOST_VARIABLES};
use crate::lines::{fate_line, placer, runner};
use crate::tries::{tried, Fate};

/// A case, and what it is there for.
pub struct Made {
    pub what: &'static str,
    pub case: Case,
}

const X: &str = "var x = 0 in 0..3;";
pub(super) const X_Y: &str = "var x = 0 in 0..1; var y = 0 in 0..1;";

const UP: &str = "waituntil (x < 3) { x := x + 1; }";
const STAY: &str = "waituntil (true) { }";

/// Region 1 makes region 0's guard true from x 2 alone (document 01, example 8).
const EXAMPLE_8: [&str; 2] =
    ["waituntil (x == 3) { }", "waituntil (true) { if (x == 2) { x := 3; } }"];

/// x is changed only where y has been, and y only where x has been.
const EACH_OTHER: [&str; 2] = [
    "waituntil (true) { if (y == 1) { x := 1; } }",
    "waituntil (true) { if (x == 1) { y := 1; } }",
];

/// A file with these variables, kept condition and tries, each region a method of its own.
pub(super) fn file(variables: &str, keep: &str, tries: &[&str], regions: &[&str]) -> String {
    let tries: String = tries.iter().map(|condition| format!(" try {condition};")).collect();
    let method = |(number, region)| format!(" method m{number} {{ {region} }}");
    let methods: String = regions.iter().enumerate().map(method).collect();
    format!("monitor m {{ {variables} keep {keep};{tries}{methods} }}")
}

/// All of them.
pub fn made() -> Vec<Made> {
    let mut made = Vec::new();
    let mut add = |what, file, frames: &str| made.push(Made { what, case: case(file, frames) });
    choices(&mut add);
    runs(&mut add);
    faults(&mut add);
    refusals(&mut add);
    made
}

type Add<'a> = dyn FnMut(&'static str, String, &str) + 'a;

/// A file beside these frames, which have blanks between.
pub(super) fn case(file: String, frames: &str) -> Case {
    let trace: String = frames.split_whitespace().map(|frame| format!("{frame}\n")).collect();
    Case { monitor: file.into(), trace: trace.into() }
}

/// Which tries are chosen, and why the others are not.
fn choices(add: &mut Add) {
    let x = |tries: &[&str], regions: &[&str]| file(X, "true", tries, regions);
    let x_y = |tries: &[&str], regions: &[&str]| file(X_Y, "true", tries, regions);
    add("no tries", x(&[], &EXAMPLE_8), "000000 010101");
    add("a chosen try empties the table", x(&["x < 2"], &EXAMPLE_8), "000000 010101");
    add("true, false", x(&["true", "false"], &[UP]), "000001");
    add("false at the start", x(&["x == 1", "x > 0", "x < 4"], &[UP]), "000001");
    add("broken at once", x(&["x == 0"], &[UP]), "000001 000001");
    add("two need each other", x_y(&["x == 0", "y == 0"], &EACH_OTHER), "000001 010101");
    add("one lacks the other", x_y(&["x == 0"], &EACH_OTHER), "");
    add("the other way round", x_y(&["y == 0", "x == 0"], &EACH_OTHER), "");
    let broken = [EACH_OTHER[0], EACH_OTHER[1], "waituntil (y == 0) { y := 1; }"];
    add("two fall one after the other", x_y(&["x == 0", "y == 0"], &broken), "020201 000001");
    add("one a pass", x(&["x != 1", "x != 2", "x != 3"], &[UP]), "");
    add("one a pass, the last first", x(&["x != 3", "x != 2", "x != 1"], &[UP]), "");
    add("one a pass, and one stays", x(&["x != 2", "x >= 0", "x != 1"], &[UP]), "");
    add("two in one pass", x(&["x < 1", "x == 0", "x < 2"], &[UP]), "");
    let late = [
        "waituntil (x == 2) { x := 3; }",
        "waituntil (x == 0) { x := 1; }",
        "waituntil (x < 2) { if (x == 1) { x := 2; } else { x := 3; } }",
    ];
    add("the lowest region, then the lowest state", x(&["x != 3", "x != 1", "x != 2"], &late), "");
    add(
        "keep narrows what binds",
        file(
            X,
            "x != 1",
            &["x != 3"],
            &["waituntil (x == 1) { x := 3; }", "waituntil (x == 0) { x := 2; }"],
        ),
        "010101",
    );
    add("a guard narrows what binds", x(&["x < 3"], &["waituntil (x < 2) { x := x + 1; }"]), "");
    add("a try that is a guard", x(&["x == 3", "x < 3"], &EXAMPLE_8), "");
    let lower = ["waituntil (x == 2) { x := 3; }", "waituntil (x < 2) { x := 3; }"];
    add("the lower region from the higher state", x(&["x < 3"], &lower), "");
    let down = "waituntil (x == 3) { x := 2; }";
    add("the last state", x(&["x != 2"], &[down]), "");
    let from_2 = "var x = 2 in 0..3;";
    let tries = ["x == 2", "x != 0", "x < 2", "x < 3"];
    let round = "waituntil (x > 0) { x := x - 1; }";
    add(
        "from another state than the lowest",
        file(from_2, "true", &tries, &[STAY, round]),
        "010101",
    );
    let square = "var x = 0 in 0..63; var y = 0 in 0..63;";
    let corner = "waituntil (x == 63 && y == 63) { x := 0; }";
    let facts = ["x > 0 || y < 63", "x < 64"];
    add("the last of 4,096 states", file(square, "true", &facts, &[STAY, corner]), "000001");
    let [two, last] = [STAY, UP].map(|region| format!("{STAY} {region}"));
    let sixteen = [[two.as_str(); 7].as_slice(), &[&last]].concat();
    add("the last of sixteen regions", x(&["x != 1", "x != 2", "x < 4"], &sixteen), "");
    let negative = "var tries = -2 in -4..-1; var Try = 0 in 0..1;";
    let down = "waituntil (tries > -4) { tries := tries - 1; }";
    let facts = ["tries <= -2", "0 - tries + 1 == 0 || Try == 0", "Try - tries > 1"];
    add("negative values, names that begin so", file(negative, "true", &facts, &[down]), "000001");
    let counted = |sixteen: Vec<String>| {
        let tries: Vec<&str> = sixteen.iter().map(String::as_str).collect();
        let up = "waituntil (x < 16) { x := x + 1; }";
        file("var x = 0 in 0..16;", "true", &tries, &[STAY, up])
    };
    let facts = |comparison: &'static str| {
        (1..=MOST_TRIES).map(move |value| format!("x {comparison} {value}"))
    };
    add("sixteen fall one a pass", counted(facts("!=").collect()), "010101");
    add("sixteen fall, the last first", counted(facts("<").rev().collect()), "010101");
    add("sixteen are chosen", x(&["x <= 3"; MOST_TRIES], &[UP]), "000001");
    add("every other one is chosen", x(&["true", "x == 0"].repeat(8), &[UP]), "000001");
    let six = "var a = 0 in 0..3; var b = 0 in 0..3; var c = 0 in 0..3; \
               var d = 0 in 0..3; var e = 0 in 0..3; var f = 0 in 0..3;";
    let names = ["a", "b", "c", "d", "e", "f"];
    let moved = names.windows(2).map(|w| format!("if ({} > 0) {{ {} := 1; }}", w[1], w[0]));
    let region = format!("waituntil (true) {{ {} }}", moved.collect::<String>());
    let tries = names.map(|name| format!("{name} == 0"));
    let tries = tries.each_ref().map(String::as_str);
    add("six need the next", file(six, "true", &tries, &[&region]), "000001");
    let last = "waituntil (f == 0) { f := 1; }";
    add("six need the next, the last falls", file(six, "true", &tries, &[&region, last]), "");
}

/// What a chosen try does to the table and so to runs.
fn runs(add: &mut Add) {
    // From x 3 region 0 would leave region 1's guard false: the try makes it unconditional.
    let regions =
        ["waituntil (x != 1) { if (x < 3) { x := 1; } }", "waituntil (x == 1) { x := 0; }"];
    let waits = "000100 010100 020001 000101 010100";
    add("conditional", file(X, "true", &[], &regions), waits);
    add("unconditional by a try", file(X, "true", &["x != 3"], &regions), waits);
    // Region 1 leaves its guard holding from x 3 alone: the try makes it a signal.
    let regions = [
        "waituntil (x == 0) { x := 2; }",
        "waituntil (x > 1) { if (x == 2) { x := 0; } else { x := 2; } }",
    ];
    add("a broadcast", file(X, "true", &[], &regions), "000100 010100 020001 000101 010100");
    let signal = file(X, "true", &["x < 3"], &regions);
    add("a signal by a try", signal.clone(), "000100 010100 020001 000101 010100");
    add("a signal by a try, without notice", signal, "000100 010100 020001 010101");
}

/// Bodies that leave a range or end with keep false.
fn faults(add: &mut Add) {
    let over = "waituntil (x == 3) { x := 4; }";
    let two = "waituntil (x < 2) { x := x + 1; }";
    add("a fault that the try leaves out", file(X, "true", &["x < 3"], &[over, two]), "010101");
    add("a fault that stays", file(X, "true", &["x < 3"], &[over, UP]), "010101");
    add("a fault without the try", file(X, "true", &[], &[over, two]), "010101");
    let end = "waituntil (x == 2) { x := 3; }";
    let keep = "x < 3";
    add("keep false after it, left out", file(X, keep, &["x < 2"], &[end, STAY]), "010101");
    add("keep false after it", file(X, keep, &["x < 2"], &[end, two]), "010101");
    let freed = "waituntil (x == 0) { x := 1; x := 4; }";
    add("a fault frees the choice", file(X, "true", &["x == 0", "x != 1"], &[freed]), "");
    let bound = "waituntil (x == 0) { x := 3; }";
    add("an end with keep false binds it", file(X, keep, &["x == 0", "x < 2"], &[bound]), "");
    let midway = "waituntil (x == 0) { x := 1; x := 0; }";
    add("false midway", file(X, "true", &["x != 1"], &[midway]), "000001");
}

/// Files that are refused by 1 to 8, and their neighbours that are not.
fn refusals(add: &mut Add) {
    let most = file(X, "true", &["true"; MOST_TRIES], &[UP]);
    let over = file(X, "true", &["true"; MOST_TRIES + 1], &[UP]);
    add("sixteen tries", most.clone(), "000001");
    add("seventeen tries", over.clone(), "000001");
    let variables = |count: usize| -> String {
        let more = (1..count).map(|n| format!(" var v{n} = 0 in 0..0;"));
        X.to_string() + &more.collect::<String>()
    };
    add("a variable too many before", over.replace(X, &variables(MOST_VARIABLES + 1)), "");
    let too_many_methods =
        |tries: usize| file(X, "true", &vec!["true"; tries], &[STAY; MOST_METHODS + 1]);
    add("a method too many behind", too_many_methods(MOST_TRIES + 1), "");
    add("a method too many", too_many_methods(MOST_TRIES), "");
    let good = file(X, "true", &["x < 4"], &[UP, STAY]);
    let at = |place: &str, text: &str| good.replacen(place, text, 1);
    add("try before keep", at("keep", "try true; keep"), "");
    add("try before var", at("var", "try true; var"), "");
    add("try between methods", at("method m1", "try true; method m1"), "");
    add("try in a method", at("waituntil", "try true; waituntil"), "");
    add("try in a body", at("x :=", "try true; x :="), "");
    add("try at the end", good.strip_suffix('}').expect("a file").to_string() + "try true; }", "");
    add("try behind the end", format!("{good} try true;"), "");
    add("keep again", at("method", "keep true; method"), "");
    add("keep without semicolon", at("keep true;", "keep true"), "");
    add("nothing behind try", at("try x < 4;", "try;"), "");
    add("a try without semicolon", at("try x < 4;", "try x < 4"), "");
    add("two conditions", at("x < 4;", "x < 4, true;"), "");
    add("try twice", at("try", "try try"), "");
    add("a sum for a condition", at("x < 4;", "x + 4;"), "");
    add("a file that ends behind try", "monitor m{var x=0 in 0..1;keep true;try".into(), "");
    add("a monitor named try", at("monitor m", "monitor try"), "");
    add("a variable named try", good.replace("x", "try"), "");
    add("a method named try", at("m0", "try"), "");
    add("names like try", good.replace("x", "try_").replace("m1", "Try"), "000001");
    add("an unknown name", at("x < 4", "z < 4"), "");
    add("a method's name", at("x < 4", "m1 < 4"), "");
    add("an unknown name, the second try", at("x < 4;", "x < 4; try x == 0 || y;"), "");
    add("the same, as a condition", at("x < 4;", "x < 4; try x == 0 || y == x;"), "");
    add("a bad range before tries", at("0..3", "1..3"), "");
    add("keep false at the start", at("keep true", "keep x == 1"), "");
    add("keep and try false at the start", at("true; try x < 4", "x > 0; try x > 0"), "");
    let deep =
        |depth: usize| at("x < 4", &format!("{}x < 4{}", "(".repeat(depth), ")".repeat(depth)));
    add("a try as deep as can be", deep(11), "000001");
    add("a try that is too deep", deep(12), "");
}

/// So small that a proof by computation takes them.
const MOST_SMALL: [usize; 3] = [8, 4, 3];

/// Whether a case has few states, few tries and few passes; its file passes the checks 1 to 8.
pub fn is_small(case: &Case) -> bool {
    let Ok(monitor) = check_to_8(&case.monitor) else { return false };
    let passes = monitor.fates.iter().map(|fate| match fate {
        Fate::Broken { pass, .. } => *pass,
        _ => 0,
    });
    let sizes = [monitor.count_of_states(), monitor.tries.len(), passes.max().unwrap_or(0)];
    sizes.iter().zip(MOST_SMALL).all(|(size, most)| *size <= most)
}

/// The small ones, as text: of each its number and what it is there for; the file; the frames;
/// the chosen tries as a number (0 of a refused file); the fates; what `placer` prints; what
/// `runner` prints. Lists have blanks between, and an empty line ends a case.
pub fn small_list() -> String {
    let mut text = String::new();
    let small = made().into_iter().filter(|made| is_small(&made.case));
    for (number, Made { what, case: Case { monitor, trace } }) in small.enumerate() {
        let (verdict, fates) = tried(&monitor);
        let chosen = match verdict {
            Ok(()) => check_to_8(&monitor).map_or(0, |monitor| monitor.chosen()),
            Err(_) => 0,
        };
        let fates: String = fates.unwrap_or_default().into_iter().map(fate_line).collect();
        text += &format!("case {number}: {what}\n");
        text += &format!("file: {}\n", on_a_line(&monitor));
        text += &format!("trace: {}\n", on_a_line(&trace));
        text += &format!("chosen: {chosen}\n");
        text += &format!("fates: {}\n", on_a_line(fates.as_bytes()));
        text += &format!("placer: {}\n", on_a_line(&placer(&monitor)));
        text += &format!("runner: {}\n\n", on_a_line(&runner(&monitor, &trace)));
    }
    text
}

/// Lines as one line, with blanks between.
pub(super) fn on_a_line(lines: &[u8]) -> String {
    String::from_utf8_lossy(lines).trim_end().replace('\n', " ")
}
