//! Cases whose touched pairs are counted by hand (document 02, E2).

use super::made::{case, file, on_a_line, X_Y};
use super::Case;
use crate::check::check_to_8;
use crate::limits::{MOST_DEPTH, MOST_REGIONS};
use crate::lines::{placer, runner};

/// A case, what it is there for, and how many pairs of region and guard are touched: 0 of a
/// file that is refused.
pub struct Counted {
    pub what: &'static str,
    pub pairs: usize,
    pub case: Case,
}

const X: &str = "var x = 0 in 0..1;";
const X_Y_Z: &str = "var x = 0 in 0..1; var y = 0 in 0..1; var z = 0 in 0..1;";

const BOX: &str = "monitor box { var full = 0 in 0..1; keep true; \
                   method put { waituntil (full == 0) { full := 1; } } \
                   method get { waituntil (full == 1) { full := 0; } } }";

/// All of them.
pub fn counted() -> Vec<Counted> {
    let mut counted = Vec::new();
    let mut add = |what, pairs, file, frames: &str| {
        counted.push(Counted { what, pairs, case: case(file, frames) });
    };
    bodies(&mut add);
    nested(&mut add);
    guards(&mut add);
    names(&mut add);
    numbers(&mut add);
    refusals(&mut add);
    counted
}

type Add<'a> = dyn FnMut(&'static str, usize, String, &str) + 'a;

/// A file that keeps every state and has no tries.
fn plain(variables: &str, regions: &[&str]) -> String {
    file(variables, "true", &[], regions)
}

/// What a body assigns, and what it only reads.
fn bodies(add: &mut Add) {
    // Both bodies assign full, and both guards name it.
    add("Box", 4, BOX.into(), "000100 010001 000101");

    // No body assigns anything.
    let regions = ["waituntil (x == 0) { }", "waituntil (x == 1) { if (x == 0) { } else { } }"];
    add("nothing is assigned", 0, plain(X, &regions), "000001 010100");

    // Region 0 assigns y: guard 1 alone. It reads x, which does not count.
    let regions = ["waituntil (x == 0) { y := x; }", "waituntil (y == 0) { }"];
    add("what the guard names is only read", 1, plain(X_Y, &regions), "000001 010101");

    // Region 0 assigns y: guard 1 alone. Region 1 assigns nothing.
    let regions = [
        "waituntil (x == 0) { if (x == 0) { y := 1; } }",
        "waituntil (y == 1) { if (y == 1 && x == 0) { } }",
    ];
    add("what the guard names is read in an if", 1, plain(X_Y, &regions), "000100 010001 000101");

    // Region 0 assigns y: guard 1. Region 1 assigns x: guard 0.
    let regions = ["waituntil (x == 0) { y := 1; }", "waituntil (y == 1) { x := 0; }"];
    add("neither touches its own guard", 2, plain(X_Y, &regions), "000100 010001 000101");

    // Region 0 assigns x: guard 0. Region 1 assigns y: guard 1. No entry stands on these.
    let regions = ["waituntil (x == 0) { x := 1; }", "waituntil (y == 0) { y := 1; }"];
    add("each touches its own guard alone", 2, plain(X_Y, &regions), "000001 000000 010101");

    // Region 0 assigns x and y: guard 0 by x, guard 1 by both. Region 1 assigns y: guard 1.
    let regions = [
        "waituntil (x == 0) { x := 1; y := x; x := 0; }",
        "waituntil (x == 1 || y == 1) { y := 0; }",
    ];
    add("a pair counts once", 3, plain(X_Y, &regions), "000100 010001 000101");

    // Region 0 assigns x, if to what it was: guard 1. Guard 0 names nothing.
    let regions = ["waituntil (true) { x := x; }", "waituntil (x == 1) { }"];
    add("assigned and not changed", 1, plain(X, &regions), "000100 010001");
}

/// Assignments under `if` and `else`, reached or not.
fn nested(add: &mut Add) {
    // Region 0 assigns x: guard 1. Region 1 assigns y: no guard names it.
    let regions =
        ["waituntil (true) { if (y == 0) { } else { x := 1; } }", "waituntil (x == 1) { y := 0; }"];
    add("under else alone", 1, plain(X_Y, &regions), "000100 010001");

    // Region 0 assigns y and then x: guards 2 and 1.
    let regions = [
        "waituntil (true) { if (y == 0) { y := 1; } x := 1; }",
        "waituntil (x == 1) { }",
        "waituntil (y == 1) { }",
    ];
    add("in an if and behind it", 2, plain(X_Y, &regions), "000100 010200 020001 000101");

    // Region 0 assigns y: guard 1. Region 1 assigns x: guard 0.
    let regions = [
        "waituntil (x == 0) { if (y == 0) { if (x == 0) { y := 1; } } }",
        "waituntil (y == 1) { x := 0; }",
    ];
    add("in a nested if alone", 2, plain(X_Y, &regions), "000100 010001 000101");

    // Region 0 assigns x: guard 1. Region 1 assigns y: guard 2.
    let regions = [
        "waituntil (true) { if (x == 1) { } else { if (y == 0) { } else { x := 1; } } }",
        "waituntil (x == 1) { y := 1; }",
        "waituntil (y == 1) { }",
    ];
    add("under else in an else", 2, plain(X_Y, &regions), "000100 010200 020001");

    // Region 0 assigns y, as deep as can be: guard 1.
    let ifs = MOST_DEPTH as usize - 3;
    let [opened, closed] = ["if (x == 0) { ".repeat(ifs), "} ".repeat(ifs)];
    let deep = format!("waituntil (x == 0) {{ {opened}y := 1; {closed}}}");
    let regions = [deep.as_str(), "waituntil (y == 1) { }"];
    add("in nine nested ifs", 1, plain(X_Y, &regions), "000100 010001 000101");

    // Regions 0 and 1 assign x: guard 1, both.
    let regions = ["waituntil (true) { if (false) { x := 1; } }", "waituntil (x == 1) { x := 0; }"];
    add("never reached", 2, plain(X, &regions), "000100 010001");

    // Region 0 assigns x and y: guards 0 and 1.
    let regions = [
        "waituntil (x == 0) { if (x == x) { y := 1; } else { x := 999; } }",
        "waituntil (y == 1) { }",
    ];
    add("never reached, and out of range", 2, plain(X_Y, &regions), "000100 010001 000101");

    // Region 0 assigns x: guard 1. Its body is never run.
    let regions = ["waituntil (false) { x := 1; }", "waituntil (x == 1) { }"];
    add("a guard that never holds", 1, plain(X, &regions), "000000 010100");

    // Region 0 assigns y: guard 1. No kept state meets its guard.
    let regions = ["waituntil (x == 1) { y := 1; }", "waituntil (y == 1) { }"];
    add("no kept state meets the guard", 1, file(X_Y, "x == 0", &[], &regions), "000000 010100");
}

/// What a guard names.
fn guards(add: &mut Add) {
    // All three assign x, which no guard names.
    let regions = [
        "waituntil (true) { x := 1; }",
        "waituntil (1 < 2) { x := 0; }",
        "waituntil (!false) { x := x; }",
    ];
    add("no guard names a variable", 0, plain(X, &regions), "000001 010101 020201");

    // Regions 0 and 1 assign x: guard 2 alone.
    let regions =
        ["waituntil (true) { x := 1; }", "waituntil (2 < 1) { x := 0; }", "waituntil (x == 1) { }"];
    add("one guard of three names a variable", 2, plain(X, &regions), "000200 010001 000201");

    // Region 0 assigns z: both guards, by their last name.
    let regions = [
        "waituntil (x == 0 && y == 0 && z == 0) { z := 1; }",
        "waituntil (x == 1 || y == 1 || z == 1) { }",
    ];
    add("one of three names is assigned", 2, plain(X_Y_Z, &regions), "000100 010001 000101");

    // Region 0 assigns y: guard 0. Region 1 assigns x: guards 0 and 1. None assigns z.
    let regions =
        ["waituntil (1 - x - y > 0) { y := 1; }", "waituntil (0 < x + 1 - z) { x := 1; }"];
    add("in sums, on either side", 3, plain(X_Y_Z, &regions), "000001 010101");

    // Region 0 assigns x: both guards. Region 1 assigns y: guard 0.
    let regions =
        ["waituntil (!(!(x == 0) || (y == 1))) { x := 1; }", "waituntil (!!!x < 1) { y := 1; }"];
    add("in brackets and behind !", 3, plain(X_Y, &regions), "000100 010001 000101");

    // Region 0 assigns x: guard 0. Region 1 assigns y: guard 1. Neither guard is ever false.
    let regions = ["waituntil (x == x) { x := 1; }", "waituntil (true || y == 1) { y := 1; }"];
    add("named where it does not matter", 2, plain(X_Y, &regions), "000001 010101");

    // Keep names x and the try names y; the guards name neither.
    let regions = ["waituntil (true) { x := 0; }", "waituntil (1 == 1) { y := y; }"];
    add("keep and tries are no guards", 0, file(X_Y, "x == 0", &["y == 0"], &regions), "000001");

    // Document 01's example 8: region 1 assigns x: guard 0. The try leaves no entry.
    let regions = ["waituntil (x == 3) { }", "waituntil (true) { if (x == 2) { x := 3; } }"];
    let chosen = file("var x = 0 in 0..3;", "true", &["x < 2"], &regions);
    add("a chosen try empties the table", 1, chosen, "000000 010101");
}

/// Names that are nearly the same, or are another thing's too.
fn names(add: &mut Add) {
    // Region 0 assigns xx: guard 1. Region 1 assigns x_: guard 2. Region 2 assigns x: guard 0.
    let variables = "var x = 0 in 0..1; var xx = 0 in 0..1; var x_ = 0 in 0..1;";
    let regions = [
        "waituntil (x == 0) { xx := 1; }",
        "waituntil (xx == 1) { x_ := 1; }",
        "waituntil (x_ == 1) { x := 0; }",
    ];
    add("names that begin alike", 3, plain(variables, &regions), "000100 010001 000101");

    // Region 0 assigns X: guard 1. Region 1 assigns x: guard 0.
    let regions = ["waituntil (x == 0) { X := 1; }", "waituntil (X == 1) { x := 0; }"];
    let variables = "var x = 0 in 0..1; var X = 0 in 0..1;";
    add("upper case and lower case", 2, plain(variables, &regions), "000100 010001 000101");

    // Region 0 assigns the one that ends in b: guard 1.
    let [a, b] = ["a", "b"].map(|end| "n".repeat(15) + end);
    let variables = format!("var {a} = 0 in 0..1; var {b} = 0 in 0..1;");
    let regions = [
        format!("waituntil ({a} == 0) {{ {b} := 1; }}"),
        format!("waituntil ({b} == 1) {{ if ({a} == 1) {{ }} }}"),
    ];
    let regions = regions.each_ref().map(String::as_str);
    add("names that end otherwise", 1, plain(&variables, &regions), "000100 010001 000101");

    // Region 0 assigns x: both guards. Region 1 assigns y, which no guard names.
    let named = "monitor x { var x = 0 in 0..1; var y = 0 in 0..1; keep true; \
                 method y { waituntil (x == 0) { x := 1; } } \
                 method x { waituntil (x == 1) { y := 1; } } }";
    add("methods named as variables", 2, named.into(), "000100 010001 000101");
}

/// How regions and guards are counted.
fn numbers(add: &mut Add) {
    // Region 0 assigns x: guards 0 and 2. Region 1 assigns y: guard 1. Region 2 assigns both: all.
    let one_method = "monitor m { var x = 0 in 0..1; var y = 0 in 0..1; keep true; method a { \
                      waituntil (x == 0) { x := 1; } waituntil (y == 0) { y := 1; } \
                      waituntil (x == 1) { x := 0; y := 0; } } }";
    add("three regions of one method", 6, one_method.into(), "000001 000101 000201");

    // Guard 0 names x and stands at regions 0 to 2; guard 1 names y. Region 0 touches guard 0,
    // region 1 guard 1, region 2 none, region 3 both.
    let regions = [
        "waituntil (x == 0) { x := 1; }",
        "waituntil (x == 0) { y := 1; }",
        "waituntil (x == 0) { }",
        "waituntil (y == 1) { x := 0; y := 0; }",
    ];
    add("one guard at three regions", 4, plain(X_Y, &regions), "000300 010101 000301");

    // One guard: regions 0 and 1 touch it.
    let regions = [
        "waituntil (x == 0) { x := 1; }",
        "waituntil (x==00) { x := 1; }",
        "waituntil (x == 000 ) { }",
    ];
    add("numbers of one value", 2, plain(X, &regions), "000001 010100");

    // Three guards: region 0 touches them all.
    let regions =
        ["waituntil (x == 0) { x := 1; }", "waituntil ((x == 0)) { }", "waituntil (0 == x) { }"];
    add("one condition in other tokens", 3, plain(X, &regions), "000001 010100");

    let names = ["a", "b", "c", "d", "e", "f"];
    let six: String = names.iter().map(|name| format!("var {name} = 0 in 0..1; ")).collect();
    let set = |name: &str, from: u8| {
        format!("waituntil ({name} == {from}) {{ {name} := {}; }}", 1 - from)
    };
    let all: Vec<String> = names.iter().map(|name| format!("{name} == 1")).collect();

    // Each of six touches its own guard and the last; the last assigns nothing: 6 * 2.
    let mut regions: Vec<String> = names.iter().map(|name| set(name, 0)).collect();
    regions.push(format!("waituntil ({}) {{ }}", all.join(" && ")));
    let regions: Vec<&str> = regions.iter().map(String::as_str).collect();
    let frames = "060600 000001 000101 000201 000301 000401 010501 060601";
    add("six variables and a guard of all", 12, plain(&six, &regions), frames);

    // Two regions for each of six variables. Those of a, b, c and d touch their two guards and
    // one of guards 13 and 14: 8 * 3. Those of e and f touch two: 4 * 2. Region 12 touches none,
    // region 13 (c) three, region 14 (f) two, region 15 twelve and guards 13 and 14.
    let more = [
        "waituntil (true) { }".to_string(),
        "waituntil (a == 0 && b == 0) { c := 1; }".to_string(),
        "waituntil (c + d > 0) { if (e == 1) { } else { f := f; } }".to_string(),
        format!("waituntil (1 < 2) {{ {} }}", names.map(|name| format!("{name} := 0;")).join(" ")),
    ];
    let pairs = names.iter().flat_map(|name| [set(name, 0), set(name, 1)]);
    let regions: Vec<String> = pairs.chain(more).collect();
    let frames = "030E00 010C01 010D01 030E01 030F01";
    add("sixteen regions, six variables", 51, by_twos(&six, &regions), frames);

    // All bodies assign x, and all guards name it: 16 * 16.
    let up = |n: usize| format!("waituntil (x == {n}) {{ x := {}; }}", (n + 1) % MOST_REGIONS);
    let regions: Vec<String> = (0..MOST_REGIONS).map(up).collect();
    add("all of 256", 256, by_twos("var x = 0 in 0..15;", &regions), "000001 000101");

    // All bodies assign y, and no guard names it.
    let aside = |n: usize| format!("waituntil (x == {n}) {{ y := 1 - y; }}");
    let regions: Vec<String> = (0..MOST_REGIONS).map(aside).collect();
    let variables = "var x = 0 in 0..15; var y = 0 in 0..1;";
    add("none of 256", 0, by_twos(variables, &regions), "000001 000100");

    // The last region assigns y: the last guard alone names it.
    let mut regions: Vec<String> =
        (1..MOST_REGIONS).map(|n| format!("waituntil (x == {n}) {{ }}")).collect();
    regions.push("waituntil (y == 0) { y := 1; }".into());
    add("the last of 256", 1, by_twos(variables, &regions), "000000 010E00");

    // One guard: each of sixteen regions touches it.
    let regions = vec!["waituntil (x == 0) { x := 1; }".to_string(); MOST_REGIONS];
    add("sixteen regions on one guard", 16, by_twos(X, &regions), "000001 000100");
}

/// A file with two regions in each method.
fn by_twos(variables: &str, regions: &[String]) -> String {
    let methods: Vec<String> = regions.chunks(2).map(|two| two.join(" ")).collect();
    plain(variables, &methods.iter().map(String::as_str).collect::<Vec<&str>>())
}

/// Files that are refused.
fn refusals(add: &mut Add) {
    add("refused, 4", 0, BOX.replace("full := 1;", "full := 1"), "000001");
    add(
        "refused, 6 where it is never reached",
        0,
        BOX.replace("full := 1;", "if (false) { f := 1; }"),
        "",
    );
    add("refused, 8", 0, BOX.replace("keep true", "keep full == 1"), "000001");
    add("refused, 9", 0, BOX.replace("full := 0;", "full := 2;"), "000001");
}

/// So small that a proof by computation takes them.
const MOST_SMALL: [usize; 2] = [8, 4];

/// Whether a case has few states and few regions; its file passes the checks 1 to 8.
pub fn is_small(case: &Case) -> bool {
    let Ok(monitor) = check_to_8(&case.monitor) else { return false };
    let sizes = [monitor.count_of_states(), monitor.regions.len()];
    sizes.iter().zip(MOST_SMALL).all(|(size, most)| *size <= most)
}

/// The small ones, as text: of each its number and what it is there for; the file; the frames;
/// how many pairs are touched; what `placer` prints; what `runner` prints. Lists have blanks
/// between, and an empty line ends a case.
pub fn small_list() -> String {
    let mut text = String::new();
    let small = counted().into_iter().filter(|counted| is_small(&counted.case));
    for (number, Counted { what, pairs, case: Case { monitor, trace } }) in small.enumerate() {
        text += &format!("case {number}: {what}\n");
        text += &format!("file: {}\n", on_a_line(&monitor));
        text += &format!("trace: {}\n", on_a_line(&trace));
        text += &format!("pairs: {pairs}\n");
        text += &format!("placer: {}\n", on_a_line(&placer(&monitor)));
        text += &format!("runner: {}\n\n", on_a_line(&runner(&monitor, &trace)));
    }
    text
}
