//! Cases about remainders, worked out by hand (document 02, E5): a program that reads `mod`
//! otherwise answers, places or runs otherwise.
//!
//! What is told of a case is text: a refusal as `15 at 40`; 9 as `9 in 1 from 2`, region and state;
//! else the table, its lines with blanks between, then `;` and how both machines end, as in the
//! cases about waiters. In the texts below `@` stands before the token that is refused.

use super::made::{case, file, on_a_line, X_Y};
use super::Case;
use crate::check::{check, check_to_15};
use crate::lines::{placer, replay_pairs, replay_tries, runner};
use crate::ranges::count_of_states;

/// A case, what it is there for, and what is told of it.
pub struct Divided {
    pub what: &'static str,
    pub told: String,
    pub case: Case,
}

/// The state's number is twice x and y.
const X_Y1: &str = "var x = 0 in 0..1; var y = 1 in 0..1;";
const X3: &str = "var x = 0 in 0..3;";

const STAY: &str = "waituntil (true) { }";
const UP: &str = "waituntil (x < 3) { x := x + 1; }";

/// All of them.
pub fn divided() -> Vec<Divided> {
    let mut divided = Vec::new();
    let mut add = |what, told: &str, marked: String, frames: &str| {
        let told = match marked.find('@') {
            Some(place) => format!("{told} at {place}"),
            None => told.to_string(),
        };
        let case = case(marked.replace('@', ""), frames);
        divided.push(Divided { what, told, case });
    };
    values(&mut add);
    guards(&mut add);
    kept(&mut add);
    touched(&mut add);
    bodies(&mut add);
    choices(&mut add);
    lacking(&mut add);
    other_refusals(&mut add);
    words(&mut add);
    large(&mut add);
    divided
}

type Add<'a> = dyn FnMut(&'static str, &str, String, &str) + 'a;

/// What an expression gives: a body assigns it to x, whose range has no room for other values that
/// one might think of.
fn values(add: &mut Add) {
    let mut gives = |what, range: &str, expression: &str, value: i64| {
        let region = format!("waituntil (true) {{ x := {expression}; }}");
        let marked = file(&format!("var x = {range};"), "true", &[], &[&region]);
        add(what, &format!("; {value}:"), marked, "000001");
    };
    gives("7 mod 3", "0 in 0..2", "7 mod 3", 1);
    gives("a multiple", "2 in 0..2", "6 mod 3", 0);
    gives("below the divisor", "0 in 0..2", "2 mod 999", 2);
    gives("nought", "1 in 0..1", "0 mod 5", 0);
    gives("by one", "1 in 0..1", "7 mod 1", 0);
    gives("below 0", "0 in 0..2", "-7 mod 3", 2);
    gives("below 0, a multiple", "2 in 0..2", "-6 mod 3", 0);
    gives("below 0, by one", "1 in 0..1", "-7 mod 1", 0);
    gives("below 0, taken off", "0 in -1..1", "1 - -7 mod 3", -1);
    gives("taken off", "1 in 0..2", "1 - 7 mod 3", 0);
    gives("just below 0, by the greatest number", "0 in 0..2", "-1 mod 999 - 997", 1);
    gives("the least number", "0 in 0..2", "-999 mod 127 - 16", 1);
    gives("before a sum", "0 in 0..4", "5 mod 3 + 1", 3);
    gives("behind a sum", "0 in 0..4", "2 + 5 mod 3", 4);
    gives("two in a sum", "0 in 0..3", "5 mod 3 + 5 mod 4", 3);
    gives("two, one taken off", "1 in 0..3", "5 mod 3 - 5 mod 4 - 1", 0);
    gives("from the left", "0 in 0..3", "9 - 5 mod 4 - 5 mod 3 - 3", 3);
    gives("a variable below 0", "-2 in -2..2", "x mod 3", 1);
    gives("a variable by itself", "3 in 0..3", "x + 1 - x mod 2 - x", 0);
    let by_x = "waituntil (x > 0) { x := 7 mod x; }";
    add(
        "by a variable",
        "; 0:",
        file("var x = 5 in 0..5;", "true", &[], &[by_x]),
        "000001 000001 000001",
    );
}

/// Guards that ask for a remainder.
fn guards(add: &mut Add) {
    let odd = |last: i64, first: i64| {
        let step = format!("if (x < {last}) {{ x := x + 1; }} else {{ x := {first}; }}");
        format!("waituntil (x mod 2 == 1) {{ {step} }}")
    };
    let even = "waituntil (x mod 2 == 0) { x := x + 1; }";
    let turns = "050100 010001 050101 050100";
    let plain = |variables: &str, regions: &[&str]| file(variables, "true", &[], regions);
    let round = plain(X3, &[even, &odd(3, 0)]);
    add("even and odd", "00010100 01000100; 2: 5@1", round.clone(), turns);
    add("even and odd, a false flag", "00010100 01000100; 14 at 1", round, "000001 000001");
    let below = plain("var x = -2 in -2..1;", &[even, &odd(1, -2)]);
    add("even and odd below 0", "00010100 01000100; 0: 5@1", below, turns);

    // Region 0 makes n == 0 true from 3 alone, and region 1 leaves it true.
    let sequence = ["waituntil (true) { n := n + 1; n := n mod 4; }", "waituntil (n == 0) { }"];
    let sequence = file("var n = 3 in 0..4;", "n < 4", &[], &sequence);
    let comes_round = "050100 000001 050101";
    add("a sequence number comes round", "00010001; 0:", sequence, comes_round);

    let again = "waituntil (x mod 002 == 00) { x := 3; }";
    let [put, take] =
        ["waituntil (x mod 2 == 0) { x := 1; }", "waituntil (x mod 2 == 1) { x := 0; }"];
    let shared = plain(X3, &[put, again, take]);
    let run = "030200 010001 030201";
    add("one guard, numbers by value", "00010100 01010100 02000100; 0:", shared, run);
    let turned = "waituntil (0 == x mod 2) { x := 3; }";
    let apart = plain(X3, &[put, turned, take]);
    add("the sides for one another", "00020100 01020100 02000100 02010100; 0:", apart, run);

    let sum = ["waituntil (x + 1 mod 2 == 2) { x := 0; }", "waituntil (x == 0) { x := 1; }"];
    let sums = plain("var x = 0 in 0..1;", &sum);
    add("a sum in a guard", "00010100 01000100; 1:", sums, "050000 000101 050001 000101");
    // 5 mod y is 0, 1, 2, 1 and 0.
    let by_y = ["waituntil (5 mod y == 2) { y := 1; }", "waituntil (y < 5) { y := y + 1; }"];
    let by_y = plain("var y = 1 in 1..5;", &by_y);
    let waits = "030000 000101 000101 030001";
    add("by a variable, in a guard", "01000000; 1:", by_y, waits);
}

/// Remainders in keep and in tries.
fn kept(add: &mut Add) {
    let by_twos = ["waituntil (x < 2) { x := x + 2; }", "waituntil (x == 2) { x := 0; }"];
    let even = file(X3, "x mod 2 == 0", &[], &by_twos);
    add("every other state is kept", "00010100 01000100; 0:", even, "000001 010101");
    add("a body ends where it is not", "9 in 0 from 0", file(X3, "x mod 2 == 0", &[], &[UP]), "");
    let at_start =
        |variables: &str, keep: &str| file(variables, keep, &[], &[STAY]).replace("keep", "@keep");
    add("not kept at the start", "8", at_start(X3, "x mod 2 == 1"), "");
    add("not kept below 0", "8", at_start("var x = -1 in -1..0;", "x mod 2 == -1"), "");
    add("not kept, by the divisor", "8", at_start("var x = 2 in 0..2;", "x mod 2 == 2"), "");
    let kept = file("var x = -1 in -1..0;", "x mod 2 == 1", &[], &[STAY]);
    add("kept below 0", "; -1:", kept, "000001");
    let tries = ["x mod 2 == 0", "x mod 3 == 0", "x mod 2 == 1"];
    add("one of three tries", "; 2:", file(X3, "true", &tries, &[by_twos[0]]), "000001");
    let tries = ["x mod 4 == 0", "x mod 2 != 1"];
    let steps = ["waituntil (x mod 2 == 0) { x := 2 - x; }"];
    add("the other of two tries", "; 0:", file(X3, "true", &tries, &steps), "000001 000001");
}

/// Names beside `mod` count.
fn touched(add: &mut Add) {
    let plain = |variables: &str, regions: &[&str]| file(variables, "true", &[], regions);
    let left = ["waituntil (x mod 2 == 1) { y := 1; }", "waituntil (true) { x := 1; }"];
    add("named on the left", "01000101; 1,1:", plain(X_Y, &left), "050000 000101 050001");
    let right = ["waituntil (1 mod y == 0) { y := 2; }", "waituntil (true) { y := 1; }"];
    let run = "000001 050000 010101 050001";
    add("named as the divisor", "01000100; 2:", plain("var y = 1 in 1..2;", &right), run);
    let both = ["waituntil (x mod y == 1) { x := 0; }", "waituntil (x == 0) { x := 1; y := 2; }"];
    let both = plain("var x = 0 in 0..1; var y = 1 in 1..2;", &both);
    add("named on both sides", "00010100 01000100; 0,2:", both, "050000 000101 050001");
    let always = ["waituntil (x mod 1 == 0) { x := 1 - x; }"];
    add("named for nothing", "; 1:", plain("var x = 0 in 0..1;", &always), "000001");
    let by_one = ["waituntil (7 mod y == 1 - 1) { y := 1; }", "waituntil (2 < 3) { y := 3; }"];
    let by_one = plain("var y = 1 in 1..3;", &by_one);
    add("named as the divisor alone", "; 3: 5@0", by_one, "000101 050000");
    let other =
        ["waituntil (3 mod 2 == x mod 1) { y := 0; }", "waituntil (y mod 1 == 0) { x := 0; }"];
    add("named on the left alone", "; 0,0: 5@0", plain(X_Y, &other), "050000 010101");
}

/// A missing value that a body meets on its way is a fault.
fn bodies(add: &mut Add) {
    let mut body = |what, told: &str, guard: &str, body: &str, frames: &str| {
        let region = format!("waituntil ({guard}) {{ {body} }}");
        add(what, told, file(X_Y1, "true", &[], &[&region]), frames);
    };
    body("assigned without a value", "9 in 0 from 0", "true", "x := 1 mod y;", "");
    body("assigned where there is a value", "; 0,1:", "y > 0", "x := 1 mod y;", "000001");
    body("assigned by 0", "9 in 0 from 1", "y > 0", "x := x mod 0;", "");
    body("assigned by a number below 0", "9 in 0 from 0", "true", "x := 1 mod -1;", "");
    body("in a sum", "9 in 0 from 2", "x == 1", "x := x - 1 + y mod y;", "");
    body("an if without a value", "9 in 0 from 0", "true", "if (1 mod y == 0) { x := 1; }", "");
    body("an if that has one", "; 1,1:", "y == 1", "if (1 mod y == 0) { x := 1; }", "000001");
    body("an if, on the right", "9 in 0 from 0", "true", "if (0 == y mod y) { }", "");
    body("an if, denied", "9 in 0 from 0", "true", "if (!(1 mod y == 1)) { }", "");
    body(
        "an if and its else",
        "9 in 0 from 0",
        "true",
        "if (y mod y == 0) { } else { x := 0; }",
        "",
    );
    body("behind false", "9 in 0 from 0", "true", "if (false && 1 mod 0 == 0) { x := 1; }", "");
    body("behind true", "9 in 0 from 0", "true", "if (true || 1 mod y == 0) { x := 0; }", "");
    let asked = "if (y > 0 && x mod y == 0) { x := 1 - x; }";
    body("asked for in the same condition", "9 in 0 from 0", "true", asked, "");
    let before = "if (1 mod y == 0 && y > 0) { x := 1; }";
    body("asked for behind it", "9 in 0 from 0", "true", before, "");
    let all = "if (x == 0 || y mod x == 0 || true) { }";
    body("in the middle of three", "9 in 0 from 0", "true", all, "");
    body(
        "in a branch that is not taken",
        "; 0,1:",
        "true",
        "if (y > 0) { x := x mod y; }",
        "000001",
    );
    let other = "if (y == 0) { } else { x := x mod y; }";
    body("in an else that is not taken", "; 0,1:", "true", other, "000001");
    let other = "if (y > 0) { } else { x := x mod y; }";
    body("in an else that is taken", "9 in 0 from 0", "true", other, "");
    let nested = "if (x == 1) { if (y == 0) { x := 1 mod y; } }";
    body("in a nested if", "9 in 0 from 2", "true", nested, "");
    let nested = "if (x == 2) { if (1 mod 0 == 0) { } }";
    body("in an if that is not reached", "; 0,1:", "true", nested, "000001");
    body("where the body makes it so", "9 in 0 from 0", "true", "y := 0; x := x mod y;", "");
    body("where the body prevents it", "; 0,1:", "true", "y := 1; x := x mod y;", "000001");
    body("in a body that never runs", "; 0,1: 0@0", "false", "x := 1 mod 0;", "000000");

    let later = [STAY, "waituntil (x == 1) { y := 1 mod y; }"];
    add("in the second region", "9 in 1 from 2", file(X_Y1, "true", &[], &later), "");
    let divide = ["waituntil (true) { x := x mod y; }"];
    add("states left out by keep", "; 0,1:", file(X_Y1, "y > 0", &[], &divide), "000001");
    add("states left out by a try", "; 0,1:", file(X_Y1, "true", &["y > 0"], &divide), "000001");
}

/// A body that meets a missing value binds no try.
fn choices(add: &mut Add) {
    // Region 1 makes y 0. From there region 0 has a fault, behind which x == 0 would be broken.
    let of = |body: &str| {
        let regions = [&format!("waituntil (y == 0) {{ {body} }}"), "waituntil (true) { y := 0; }"];
        file(X_Y1, "true", &["x == 0", "y == 1"], &regions)
    };
    add("a fault breaks no try", "9 in 0 from 0", of("x := 1; y := 1 mod y;"), "");
    add("a fault in an if breaks none", "9 in 0 from 0", of("x := 1; if (1 mod y == 0) { }"), "");
    let both = "x := 1; if (true || 1 mod 0 == 0) { }";
    add("a fault behind true breaks none", "9 in 0 from 0", of(both), "");
    // Were x == 0 broken, region 0 would leave its range from x 1.
    let regions = [
        "waituntil (x == 1) { x := 2; }",
        "waituntil (y == 0) { x := 1 - x; x := 1 mod y; }",
        "waituntil (true) { y := 0; }",
    ];
    let told = "9 in 1 from 0";
    add("a fault keeps a state out", told, file(X_Y1, "true", &["x == 0", "y == 1"], &regions), "");
    // From y 0 no body has a value, and from y 1 y stays.
    let stays = ["waituntil (true) { if (y mod y == 0) { x := 1; } else { y := 0; } }"];
    let stays = file(X_Y1, "true", &["y == 1", "x == 0"], &stays);
    add("a try that leaves the fault out", "; 1,1:", stays, "000001");
}

/// 15: a `mod` in keep, a try or a guard that lacks a value in some state.
fn lacking(add: &mut Add) {
    let mut keep = |what, variables: &str, keep: &str| {
        add(what, "15", file(variables, keep, &[], &[STAY]), "");
    };
    keep("keep by 0", X3, "x @mod 0 == 0");
    keep("keep by 0 with more digits", X3, "x @mod 000 == 0");
    keep("keep by -0", X3, "x @mod -0 == 0");
    keep("keep by -2", X3, "x @mod -2 == 0");
    keep("keep by -999", X3, "0 < x @mod -999");
    keep("two numbers", X3, "7 @mod 0 == 7");
    keep("behind false, and false at the start", X3, "false && x @mod 0 == 0");
    keep("behind true, in keep", X3, "true || x @mod 0 == 0");
    keep("denied", X3, "!(x @mod 0 == 0)");
    keep("the second of two", X3, "x mod 2 == x @mod 0");
    keep("the second in a sum", X3, "x mod 1 + x @mod -1 == 0");
    keep("the first of two that lack one", X3, "x @mod 0 == x mod 0");
    keep("the second that lacks one", X_Y1, "x mod 1 == 0 && 1 @mod y == 0 && 1 mod 0 == 0");
    keep("keep by a variable from 0", "var x = 3 in 0..3;", "7 @mod x < 7");
    keep("keep by a variable below 0", "var x = -1 in -2..-1;", "7 @mod x < 7");
    keep("keep by a variable from -1 to 1", "var x = 1 in -1..1;", "7 @mod x < 7");
    keep("keep by 0 to 0", "var x = 0 in 0..0;", "7 @mod x < 7");
    keep("a variable by itself, from 0", "var x = 1 in 0..3;", "x @mod x == 0");
    keep("asked for beside it, in keep", X_Y1, "y > 0 && x @mod y == 0");

    let of = |variables: &str, keep: &str, tries: &[&str], guards: &[&str]| {
        let region = |guard: &&str| format!("waituntil ({guard}) {{ }}");
        let regions: Vec<String> = guards.iter().map(region).collect();
        let regions: Vec<&str> = regions.iter().map(String::as_str).collect();
        file(variables, keep, tries, &regions)
    };
    add("a guard by 0", "15", of(X3, "true", &[], &["x @mod 0 == 0"]), "000001");
    add("a guard by a variable", "15", of(X_Y1, "true", &[], &["x @mod y == 0"]), "");
    add("asked for beside it", "15", of(X_Y1, "true", &[], &["y > 0 && x @mod y == 0"]), "");
    add("states that are not kept", "15", of(X_Y1, "y > 0", &[], &["x @mod y == 0"]), "");
    let twice = of(X_Y1, "y > 0", &[], &["x mod 1 == 0", "x @mod y == 0", "x mod y == 0"]);
    add("states that are not kept, the second guard", "15", twice, "");
    add("states that a try leaves out", "15", of(X_Y1, "true", &["y > 0"], &["x @mod y == 0"]), "");
    add("a try by 0", "15", of(X3, "true", &["x @mod 0 == 0"], &["true"]), "");
    add(
        "a try behind false",
        "15",
        of(X3, "true", &["true", "false && 1 @mod 0 == 0"], &["true"]),
        "",
    );
    let at_start = of(X_Y1, "true", &["x == 1 && x @mod y == 0", "true"], &["true"]);
    add("a try that is false at the start", "15", at_start, "");
    add("a try at states not kept", "15", of(X_Y1, "y == 1", &["1 @mod y == 0"], &["true"]), "");
    let try_first = of(X3, "x mod 2 == 0", &["x mod 3 == 0", "x @mod 0 == 0"], &["x mod 0 == 0"]);
    add("a try before a guard", "15", try_first, "");
    let keep_first = of(X3, "x @mod 0 == 0", &["x mod -1 == 0"], &["x mod 0 == 0"]);
    add("keep before a try and a guard", "15", keep_first, "");
    let guard_last = of(X3, "x mod 5 == 0", &["x mod 3 == 0"], &["x mod 2 == 0", "9 @mod x == 0"]);
    add("a guard behind good ones", "15", guard_last, "");

    let in_body = ["waituntil (true) { x := 1 mod 0; }", "waituntil (x @mod 0 == 0) { }"];
    add("a guard behind a body by 0", "15", file(X3, "true", &[], &in_body), "");
    let in_if = ["waituntil (x == 0) { if (1 mod 0 == 0) { } }", "waituntil (x @mod 0 == 0) { }"];
    add("a guard behind an if by 0", "15", file(X3, "true", &[], &in_if), "");
    let one = of("var x = 1 in 1..3;", "x mod x == 0", &["7 mod x < 3"], &["8 mod x == 0"]);
    add("by a variable from 1", "; 1:", one, "000001");
    let only = of("var x = 0 in 0..1; var y = 1 in 1..1;", "x mod y == 0", &[], &["1 mod y == 0"]);
    add("by 1 to 1", "; 0,1:", only, "000001");
}

/// 15 beside other refusals.
fn other_refusals(add: &mut Add) {
    let of = |variables: &str, keep: &str, region: &str| file(variables, keep, &[], &[region]);
    let over = "waituntil (x @mod 0 == 0) { x := 9; }";
    add("15 before 9", "15", of(X3, "true", over), "");
    add("15 before 8", "15", of(X3, "x == 1", "waituntil (x @mod 0 == 0) { }"), "");
    let tried = file(X3, "x == 1", &["x @mod 0 == 0"], &[STAY]);
    add("15 before 8, in a try", "15", tried, "");
    add("15 before 8, by a variable", "15", of(X_Y1, "y mod 2 == 0 && 1 @mod y == 0", STAY), "");
    let start = "@var x = 4 in 0..3;";
    add("7 before 15: the start", "7", of(start, "x mod 0 == 0", STAY), "");
    let range = "var x = 0 in 0..3; @var y = 0 in 0..-1;";
    add("7 before 15: the divisor's range", "7", of(range, "x mod y == 0", STAY), "");
    let many = "var x = 0 in 0..63; var y = 0 in 0..63; @var z = 0 in 0..1;";
    add("7 before 15: too many states", "7", of(many, "x mod z == 0", STAY), "");
    let wide = "@var x = 0 in -129..3;";
    add("7 before 15: below -128", "7", of(wide, "1 mod x == 0", STAY), "");
    add("6 before 15: the divisor", "6", of(X3, "x mod 0 == x mod @z", STAY), "");
    add("6 before 15: the left side", "6", of(X3, "x mod 0 == @z mod 2", STAY), "");
    add("4 before 15", "4", of(X3, "x mod 0 @mod 1 == 0", STAY), "");
    let fault = "waituntil (true) { x := 3 mod 4 + 1; }";
    add("9 by a range", "9 in 0 from 0", of(X3, "true", fault), "");
    add(
        "9 by a range below 0",
        "9 in 0 from 1",
        of(X3, "true", "waituntil (x == 1) { x := x mod 3 - 2; }"),
        "",
    );
}

/// Where `mod` may stand.
fn words(add: &mut Add) {
    let mut body = |what, told: &str, body: &str, frames: &str| {
        let region = format!("waituntil (true) {{ {body} }}");
        add(what, told, file(X3, "true", &[], &[&region]), frames);
    };
    body("mod twice", "4", "x := x mod 2 @mod 2;", "");
    body("mod twice in a sum", "4", "x := 1 + x mod 2 @mod 3;", "");
    body("mod behind mod", "4", "x := x mod @mod 2;", "");
    body("nothing on the left", "4", "x := @mod 2;", "");
    body("nothing on the right", "4", "x := x mod @;", "");
    body("brackets on the right", "4", "x := 7 mod @(x);", "");
    body("a sign on the right", "4", "x := 7 mod @+ 2;", "");
    body("a name behind a minus", "4", "x := 7 mod -@x;", "");
    body("two signs", "4", "x := 7 mod -@-2;", "");
    body("true on the left", "4", "if (true @mod 2) { }", "");
    body("brackets on the left", "4", "if ((x@) mod 2 == 0) { }", "");
    body("mod as a left side", "4", "@mod := 1;", "");
    body("a word for both", "4", "x := 7 @mod3;", "");
    body("no blank behind a number", "; 1:", "x := 7mod 3;", "000001");
    body("a minus right behind", "9 in 0 from 0", "x := 7 mod-3;", "");
    let good = file(X3, "true", &[], &["waituntil (x mod 2 == 0) { x := x mod 2 + 1; }"]);
    let named = |name: &str| good.replace('x', name);
    add("a variable named mod", "4", good.replacen("var x", "var @mod", 1), "");
    add("a method named mod", "4", good.replacen("m0", "@mod", 1), "");
    add("a monitor named mod", "4", good.replacen("monitor m", "monitor @mod", 1), "");
    add("mod in a range", "4", good.replacen("0..3", "0..3 @mod 2", 1), "");
    add("mod for a start", "4", good.replacen("= 0", "= 0 @mod 2", 1), "");
    add("mod_", "; 1:", named("mod_"), "000001");
    add("Mod", "; 1:", named("Mod"), "000001");
    add("mod2", "; 1:", named("mod2"), "000001");
}

/// Many states, many tokens.
fn large(add: &mut Add) {
    let variables = "var x = 0 in 0..63; var y = 0 in 0..63;";
    let step = |name: &str| {
        format!("if ({name} < 63) {{ {name} := {name} + 1; }} else {{ {name} := 0; }}")
    };
    let same = format!("waituntil (x mod 8 == y mod 8) {{ {} }}", step("x"));
    let other = format!("waituntil (x mod 8 != y mod 8) {{ {} }}", step("y"));
    let eighths = file(variables, "true", &[], &[&same, &other]);
    let run = "050100 000001 050101 050100 000001 050101";
    add("eighths of 64 by 64", "00010101 01000000; 2,2:", eighths, run);
    // State 4,095 alone: -128 mod 16 is 0, and 127 mod 16 is 15.
    let whole = "var a = -128 in -128..127; var b = 0 in 0..15;";
    let last = "waituntil (a mod 16 == 15 && b == 15) { if (a mod 255 == 127) { b := b mod 0; } }";
    add("from the last state alone", "9 in 0 from 4095", file(whole, "true", &[], &[last]), "");
    let by_all = "waituntil (a > 0) { b := b mod a; }";
    let steps = "waituntil (a < 127) { a := a + 1; }";
    let by_all =
        file("var a = 6 in -128..127; var b = 15 in 0..15;", "true", &[], &[by_all, steps]);
    add("by every number up to 127", "01000001; 7,3:", by_all, "000001 000101");
    let many = format!("0{} == 0", " + 6 mod 1".repeat(247));
    add(
        "as many as there may be",
        "; 0:",
        file(X3, &many, &[], &["waituntil (x == 0) { }"]),
        "000001",
    );
    let last = format!("0{} + x @mod 0 == 0", " + 6 mod 1".repeat(246));
    add("the last of as many", "15", file(X3, &last, &[], &["waituntil (x == 0) { }"]), "");
}

/// So small that a proof by computation takes them.
const MOST_SMALL: [usize; 3] = [4, 2, 4];

/// Whether a case has few states, few regions and few frames, and 15 or what comes behind it is its
/// answer.
pub fn is_small(case: &Case) -> bool {
    if check(&case.monitor).is_err_and(|answer| answer.number == 15) {
        return case.monitor.len() <= 200;
    }
    let Ok((_, tree)) = check_to_15(&case.monitor) else { return false };
    let states = count_of_states(&tree.variables);
    let regions = tree.methods.iter().map(Vec::len).sum();
    let sizes = [states, regions, case.trace.len() / 7];
    sizes.iter().zip(MOST_SMALL).all(|(size, most)| *size <= most)
}

/// The small ones, as text: of each its number and what it is there for; the file; the frames;
/// what `placer` prints; what `runner` prints; what `replay` prints of its tries and of its
/// touched pairs. Lists have blanks between, and an empty line ends a case.
pub fn small_list() -> String {
    let mut text = String::new();
    let small = divided().into_iter().filter(|divided| is_small(&divided.case));
    for (number, Divided { what, case: Case { monitor, trace }, .. }) in small.enumerate() {
        text += &format!("case {number}: {what}\n");
        text += &format!("file: {}\n", on_a_line(&monitor));
        text += &format!("trace: {}\n", on_a_line(&trace));
        text += &format!("placer: {}\n", on_a_line(&placer(&monitor)));
        text += &format!("runner: {}\n", on_a_line(&runner(&monitor, &trace)));
        text += &format!("tries: {}\n", on_a_line(&replay_tries(&monitor)));
        text += &format!("pairs: {}\n\n", on_a_line(&replay_pairs(&monitor)));
    }
    text
}
