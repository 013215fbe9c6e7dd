//! Cases whose states' numbers are worked out by hand (document 02, E3): with a number that has
//! too few bits, is counted from the other end or leaves out a state, something else is printed.
//!
//! A variable's weight is the product of the sizes behind it, and a state's number the sum of
//! each value less its lowest times the weight.

use super::made::{case, file, on_a_line};
use super::Case;
use crate::grammar;
use crate::ranges::{count_of_states, state_number, state_values};
use crate::tokens::tokens;

/// A case, what it is there for, what `placer` prints for it (lines with blanks between), and
/// the states of which the list asks: none if it is not listed.
pub struct Numbered {
    pub what: &'static str,
    pub placer: &'static str,
    pub asked: &'static [usize],
    pub case: Case,
}

const NAMES: [&str; 6] = ["a", "b", "c", "d", "e", "f"];

/// Weights 64 and 1.
const BY_64: &str = "var a = 0 in 0..63; var b = 0 in 0..63;";
const BY_64_HIGHEST: &str = "var a = 63 in 0..63; var b = 63 in 0..63;";

/// Weights 16 and 1.
const WIDE_FIRST: &str = "var a = 0 in -128..127; var b = 0 in 0..15;";

/// Weights 256 and 1.
const WIDE_LAST: &str = "var a = 0 in 0..15; var b = 0 in -128..127;";

/// Weights 1,024, 256, 64, 16, 4 and 1.
const SIX_OF_4: &str = "var a = 0 in 0..3; var b = 0 in 0..3; var c = 0 in 0..3; \
                        var d = 0 in 0..3; var e = 0 in 0..3; var f = 0 in 0..3;";

/// Sizes 2, 3, 4, 5, 6 and 5, which makes 3,600; weights 1,800, 600, 150, 30, 5 and 1.
const UNEQUAL: &str = "var a = 0 in 0..1; var b = 0 in -1..1; var c = 0 in 0..3; \
                       var d = 0 in -2..2; var e = 7 in 5..10; var f = 0 in -4..0;";

/// Sizes 7, 9, 13 and 5, which makes 4,095; weights 585, 65, 5 and 1.
const ODD: &str = "var a = 0 in -3..3; var b = 0 in -4..4; var c = 0 in -6..6; var d = 0 in -2..2;";

/// Sizes 3, 5 and 7, which makes 105; weights 35, 7 and 1.
const OF_105: &str = "var a = 0 in 0..2; var b = 12 in 10..14; var c = -3 in -7..-1;";

const STAY: &str = "waituntil (true) { }";

/// All of them.
pub fn numbered() -> Vec<Numbered> {
    let mut numbered = Vec::new();
    let mut add = |what, placer, file, frames: &str, asked| {
        numbered.push(Numbered { what, placer, asked, case: case(file, frames) });
    };
    highest(&mut add);
    among(&mut add);
    which_is_told(&mut add);
    entries(&mut add);
    stepped(&mut add);
    tries(&mut add);
    starts(&mut add);
    products(&mut add);
    of_size_1(&mut add);
    numbered
}

type Add<'a> = dyn FnMut(&'static str, &'static str, String, &str, &'static [usize]) + 'a;

/// The condition that holds in the state with these values alone.
fn at(values: &[i64]) -> String {
    let parts: Vec<String> =
        NAMES.iter().zip(values).map(|(name, value)| format!("{name} == {value}")).collect();
    parts.join(" && ")
}

/// A region that runs from the state with these values alone.
fn from(values: &[i64], body: &str) -> String {
    format!("waituntil ({}) {{ {body} }}", at(values))
}

/// A file that keeps every state and has no tries.
fn plain(variables: &str, regions: &[&str]) -> String {
    file(variables, "true", &[], regions)
}

/// A file whose region 1 assigns outside a range from the state with these values alone.
fn faulty(variables: &str, values: &[i64], body: &str) -> String {
    plain(variables, &[STAY, &from(values, body)])
}

/// A body that goes to the state with the next number: the last variable whose value is not its
/// highest goes up by one, and those behind it begin again. From the highest state all begin
/// again, and then `over` is run.
fn up(ranges: &[(i64, i64)], over: &str) -> String {
    NAMES.iter().zip(ranges).fold(over.into(), |carried: String, (name, (lowest, highest))| {
        format!(
            "if ({name} < {highest}) {{ {name} := {name} + 1; }} \
             else {{ {name} := {lowest}; {carried} }}"
        )
    })
}

/// The same the other way: to the state with the number before.
fn down(ranges: &[(i64, i64)]) -> String {
    NAMES.iter().zip(ranges).fold(String::new(), |carried, (name, (lowest, highest))| {
        format!(
            "if ({name} > {lowest}) {{ {name} := {name} - 1; }} \
             else {{ {name} := {highest}; {carried} }}"
        )
    })
}

/// A region that goes up from every state but the highest, and one that goes down from every
/// state but 0.
fn up_and_down(ranges: &[(i64, i64)]) -> [String; 2] {
    let end = |end: fn(&(i64, i64)) -> i64| at(&ranges.iter().map(end).collect::<Vec<i64>>());
    let [lowest, highest] = [end(|range| range.0), end(|range| range.1)];
    [
        format!("waituntil (!({highest})) {{ {} }}", up(ranges, "")),
        format!("waituntil (!({lowest})) {{ {} }}", down(ranges)),
    ]
}

/// Refusal 9 at the highest state, in many shapes: 4,095 is 0FFF, 4,094 is 0FFE.
fn highest(add: &mut Add) {
    // 63 * 64 + 63.
    add(
        "4,095 of 64 by 64",
        "0900010FFF",
        faulty(BY_64, &[63, 63], "a := 64;"),
        "000001",
        &[0, 1, 63, 64, 65, 255, 256, 257, 4031, 4032, 4094, 4095],
    );
    // 255 * 16 + 15.
    add(
        "4,095 of 256 by 16",
        "0900010FFF",
        faulty(WIDE_FIRST, &[127, 15], "a := 128;"),
        "000001",
        &[0, 1, 15, 16, 255, 256, 2048, 4079, 4080, 4095],
    );
    // 15 * 256 + 255.
    add(
        "4,095 of 16 by 256",
        "0900010FFF",
        faulty(WIDE_LAST, &[15, 127], "b := 128;"),
        "000001",
        &[0, 1, 127, 128, 255, 256, 300, 3839, 3840, 4095],
    );
    // 3 * (1,024 + 256 + 64 + 16 + 4 + 1).
    add(
        "4,095 of six of 4",
        "0900010FFF",
        faulty(SIX_OF_4, &[3; 6], "f := 4;"),
        "000001",
        &[0, 1, 4, 64, 255, 256, 1023, 1024, 2730, 4095],
    );
    // Weights 2,048, 1,024, 256, 64, 8 and 1: 2,048 + 1,024 + 3 * 256 + 3 * 64 + 7 * 8 + 7.
    let twos = "var a = 0 in 0..1; var b = 0 in 0..1; var c = 0 in 0..3; \
                var d = 0 in 0..3; var e = 0 in 0..7; var f = 0 in 0..7;";
    add(
        "4,095 of 2, 2, 4, 4, 8 and 8",
        "0900010FFF",
        faulty(twos, &[1, 1, 3, 3, 7, 7], "f := 8;"),
        "000001",
        &[0, 8, 255, 256, 1023, 1024, 2047, 2048, 4095],
    );
    // 15 * 256 + 15 * 16 + 15.
    let sixteens = "var a = 0 in -8..7; var b = 0 in -15..0; var c = 1 in 1..16;";
    add(
        "4,095 of 16 by 16 by 16",
        "0900010FFF",
        faulty(sixteens, &[7, 0, 16], "b := 1;"),
        "000001",
        &[0, 15, 16, 255, 256, 4095],
    );
    // 7 * (512 + 64 + 8 + 1).
    let eights = "var a = 0 in 0..7; var b = 0 in 0..7; var c = 0 in 0..7; var d = 0 in 0..7;";
    add(
        "4,095 of four of 8",
        "0900010FFF",
        faulty(eights, &[7; 4], "d := 8;"),
        "000001",
        &[0, 7, 8, 64, 255, 256, 511, 512, 4095],
    );
    // 1,800 + 2 * 600 + 3 * 150 + 4 * 30 + 5 * 5 + 4 = 3,599, which is 0E0F.
    add(
        "3,599 of 2, 3, 4, 5, 6 and 5",
        "0900010E0F",
        faulty(UNEQUAL, &[1, 1, 3, 2, 10, 0], "c := 4;"),
        "000001",
        &[0, 1, 5, 30, 150, 255, 256, 600, 1799, 1800, 2199, 3599],
    );
    // 6 * 585 + 8 * 65 + 12 * 5 + 4 = 4,094: one state fewer than 4,095.
    add(
        "4,094 of 7, 9, 13 and 5",
        "0900010FFE",
        faulty(ODD, &[3, 4, 6, 2], "d := 3;"),
        "000001",
        &[0, 4, 5, 65, 255, 256, 300, 584, 585, 3510, 4094],
    );
    // 62 * 65 + 64 = 4,094.
    let two_odd = "var a = -1 in -63..-1; var b = 0 in -32..32;";
    add(
        "4,094 of 63 by 65",
        "0900010FFE",
        faulty(two_odd, &[-1, 32], "a := 0;"),
        "000001",
        &[0, 64, 65, 255, 256, 4030, 4094],
    );
    // Weights 1,365, 455, 91, 13 and 1: 2 * 1,365 + 2 * 455 + 4 * 91 + 6 * 13 + 12 = 4,094.
    let primes = "var a = 0 in 0..2; var b = 0 in 0..2; var c = 0 in 0..4; \
                  var d = 0 in 0..6; var e = 0 in 0..12;";
    add(
        "4,094 of 3, 3, 5, 7 and 13",
        "0900010FFE",
        faulty(primes, &[2, 2, 4, 6, 12], "a := 3;"),
        "000001",
        &[0, 13, 91, 255, 256, 455, 1365, 4094],
    );
    // 2 * 35 + 4 * 7 + 6 = 104, which is 0068.
    add(
        "104 of 3, 5 and 7",
        "0900010068",
        faulty(OF_105, &[2, 14, -1], "c := 0;"),
        "000001",
        &[0, 6, 7, 35, 55, 59, 70, 104],
    );
    // One variable: 127 + 128 = 255.
    let one = "var a = 0 in -128..127;";
    add(
        "255 of 256",
        "09000100FF",
        faulty(one, &[127], "a := 128;"),
        "000001",
        &[0, 1, 127, 128, 255],
    );
}

/// Refusal 9 at other states. Behind each number stands the one that weights from the other end
/// would give.
fn among(add: &mut Add) {
    // 255 * 16 = 4,080, which is 0FF0 (255).
    let file = faulty(WIDE_FIRST, &[127, 0], "a := 128;");
    add("4,080, the first alone at its highest", "0900010FF0", file, "", &[]);
    // 254 * 16 + 15 = 4,079, which is 0FEF (4,094).
    let file = faulty(WIDE_FIRST, &[126, 15], "b := 16;");
    add("4,079, one below 4,080", "0900010FEF", file, "", &[]);
    // 1 * 256 + 0 = 256, which is 0100 (1).
    add("256", "0900010100", faulty(WIDE_LAST, &[1, -128], "b := -129;"), "", &[]);
    // 0 * 256 + 255 = 255, which is 00FF (4,080).
    let file = faulty(WIDE_LAST, &[0, 127], "b := 128;");
    add("255, the last alone at its highest", "09000100FF", file, "", &[]);
    // 0 * 16 + 1 = 1 (256).
    add("1", "0900010001", faulty(WIDE_FIRST, &[-128, 1], "a := -129;"), "", &[]);
    // 0 * 16 + 0.
    add("0", "0900010000", faulty(WIDE_FIRST, &[-128, 0], "a := -129;"), "", &[]);
    // 128 * 16 + 0 = 2,048, which is 0800 (128): every value is 0.
    add("2,048, every value 0", "0900010800", faulty(WIDE_FIRST, &[0, 0], "b := -1;"), "", &[]);
    // Digits 1, 0, 2, 3, 1, 4: 1,800 + 2 * 150 + 3 * 30 + 5 + 4 = 2,199, which is 0897 (3,085).
    let file = faulty(UNEQUAL, &[1, -1, 2, 1, 6, 0], "f := 1;");
    add("2,199 of unequal sizes", "0900010897", file, "", &[]);
    // 1,800, which is 0708 (1).
    let file = faulty(UNEQUAL, &[1, -1, 0, -2, 5, -4], "a := 2;");
    add("1,800, the first of six alone", "0900010708", file, "", &[]);
    // 4 (2,880).
    let file = faulty(UNEQUAL, &[0, -1, 0, -2, 5, 0], "f := 1;");
    add("4, the last of six alone", "0900010004", file, "", &[]);
    // 6 * 585 = 3,510, which is 0DB6 (6).
    let file = faulty(ODD, &[3, -4, -6, -2], "a := 4;");
    add("3,510, the first of four alone", "0900010DB6", file, "", &[]);
    // Digits 0, 4, 8, 0: 4 * 65 + 8 * 5 = 300, which is 012C (532).
    add("300", "090001012C", faulty(ODD, &[-3, 0, 2, -2], "c := 7;"), "", &[]);
    // Digits 1, 3, 3: 35 + 3 * 7 + 3 = 59, which is 003B (55).
    add("59", "090001003B", faulty(OF_105, &[1, 13, -4], "b := 15;"), "", &[]);
}

/// Refusal 9 where more than one state or region would do, and by every kind of fault.
fn which_is_told(add: &mut Add) {
    // 256 and 255: the lower is 255. From the other end they are 1 and 4,080.
    let two = format!("waituntil ({} || {}) {{ a := 16; }}", at(&[1, -128]), at(&[0, 127]));
    add("the lower of two numbers", "09000000FF", plain(WIDE_LAST, &[&two]), "", &[]);
    // 4,080 to 4,095: the lowest is 4,080.
    let row = "waituntil (a == 127) { a := 128; }";
    add("the lowest of a row", "0900000FF0", plain(WIDE_FIRST, &[row]), "", &[]);
    // 15, 31 and so on to 4,095: the lowest is 15.
    let column = "waituntil (b == 15) { b := 16; }";
    add("the lowest of a column", "090000000F", plain(WIDE_FIRST, &[column]), "", &[]);
    // Region 0 at 4,095, region 1 at 0.
    let [one, other] = [[63, 63], [0, 0]].map(|values| from(&values, "a := 64;"));
    let lower = plain(BY_64, &[&one, &other]);
    add("the lower region, the higher number", "0900000FFF", lower, "", &[]);
    // From 4,095 to 63, which is not kept.
    let region = from(&[63, 63], "a := 0;");
    let not_kept = file(BY_64, "a > 0 || b < 63", &[], &[STAY, &region]);
    add("not kept behind 4,095", "0900010FFF", not_kept, "", &[]);
    // 62 * 64 + 63 = 4,031, which is 0FBF: from there to 4,095, which is not kept.
    let region = from(&[62, 63], "a := 63;");
    let not_kept = file(BY_64, "a < 63 || b < 63", &[], &[STAY, &region]);
    add("4,095 is not kept", "0900010FBF", not_kept, "", &[]);
    // Out of the range and back into it.
    let region = from(&[63, 63], "a := 64; a := 63;");
    add("out and back at 4,095", "0900000FFF", plain(BY_64, &[&region]), "", &[]);
    // Every state has a next one but the highest.
    let over = |variables: &str, ranges: &[(i64, i64)], over: &str| {
        plain(variables, &[&format!("waituntil (true) {{ {} }}", up(ranges, over))])
    };
    let file = over(SIX_OF_4, &[(0, 3); 6], "a := 4;");
    add("a step past 4,095", "0900000FFF", file, "000001", &[]);
    let ranges = [(0, 1), (-1, 1), (0, 3), (-2, 2), (5, 10), (-4, 0)];
    add("a step past 3,599", "0900000E0F", over(UNEQUAL, &ranges, "a := 2;"), "000001", &[]);
}

/// Entries that depend on the highest state of 64 by 64, 4,095 with a and b at 63.
fn entries(add: &mut Add) {
    // Region 0 makes guard 1 true from 4,095 alone, and from no other state where it is false.
    // Region 1 leaves it true.
    let waits = "000100 010001 000101";
    let one = "waituntil (true) { if (a == 63 && b == 63) { a := 0; } }";
    let entry = plain(BY_64_HIGHEST, &[one, &from(&[0, 63], "")]);
    add("an entry from 4,095 alone", "00010001", entry, waits, &[]);

    // Region 0 runs from 4,095 alone.
    let [one, other] = [from(&[63, 63], "a := 0;"), from(&[0, 63], "b := 62;")];
    let runs = plain(BY_64_HIGHEST, &[&one, &other]);
    add("a region that runs from 4,095 alone", "00010100", runs, waits, &[]);

    // Region 0 makes guard 1 true at 4,095, where region 1 leaves it true.
    let before = "var a = 62 in 0..63; var b = 63 in 0..63;";
    let one = from(&[62, 63], "a := 63;");
    let into = plain(before, &[&one, &from(&[63, 63], "")]);
    add("an entry into 4,095 alone", "00010101", into, waits, &[]);
    // The same, and region 1 leaves 4,095 for 0.
    let into = plain(before, &[&one, &from(&[63, 63], "a := 0; b := 0;")]);
    add("a signal into 4,095 alone", "00010100", into, waits, &[]);

    // Region 0 makes guard 1 true from 127, 191 and so on, and leaves it false from 4,095.
    let five = "var a = 5 in 0..63; var b = 63 in 0..63;";
    let regions =
        ["waituntil (b == 63) { if (a < 63) { a := 0; } }", "waituntil (a == 0) { a := 1; }"];
    add("conditional by 4,095 alone", "00010000", plain(five, &regions), waits, &[]);
    let kept = "a < 63 || b < 63";
    let without = file(five, kept, &[], &regions);
    add("unconditional without 4,095", "00010100", without, waits, &[]);

    // Region 1 leaves guard 1 true from 4,095 alone, so it is told to all; and from there it does
    // not make guard 0 true.
    let last = "waituntil (b == 63) { if (a < 63) { b := 0; } }";
    let regions = ["waituntil (b == 0) { b := 63; }", last];
    let two_wait = "000100 010100 020001 000101 010100";
    let to_all = plain(BY_64, &regions);
    add("a broadcast by 4,095 alone", "00010101 01000000", to_all, two_wait, &[]);
    // Without 4,095 only one is told, and the recheck of the other is 14 at 4.
    let regions = ["waituntil (b == 0 && a < 63) { b := 63; }", last];
    let without = file(BY_64, kept, &[], &regions);
    add("a signal without 4,095", "00010100 01000100", without, two_wait, &[]);
}

/// Bodies that go to the next number or the one before. Up from every state but the highest: its
/// guard is made true by going down from the highest alone. Down from every state but 0: its
/// guard is made true by going up from 0 alone. Both stay true from most states: broadcasts.
fn stepped(add: &mut Add) {
    let both = "00010101 01000101";
    let of = |variables: &str, ranges: &[(i64, i64)]| {
        plain(variables, &up_and_down(ranges).each_ref().map(String::as_str))
    };

    // From 254 three up: 257 is 1 * 256 + 1.
    let start = "var a = 0 in 0..15; var b = 126 in -128..127;";
    let file = of(start, &[(0, 15), (-128, 127)]);
    add("from 254 past 255", both, file, "000001 000001 000001", &[]);

    // From 255 up, down and two up: 257 is 256 + 1.
    let start = SIX_OF_4.replacen("= 0", "= 3", 6).replacen("= 3", "= 0", 2);
    let file = of(&start, &[(0, 3); 6]);
    add("past 255 and back, six of 4", both, file, "000001 010101 000001 000001", &[]);

    // At 4,095 none goes up; down to 4,094, up again, and twice down: 4,093.
    let start = SIX_OF_4.replacen("= 0", "= 3", 6);
    let file = of(&start, &[(0, 3); 6]);
    let frames = "000000 010101 000001 010101 010101";
    add("down from 4,095 and back, six of 4", both, file, frames, &[]);

    // The same from 3,599 to 3,597.
    let start = "var a = 1 in 0..1; var b = 1 in -1..1; var c = 3 in 0..3; \
                 var d = 2 in -2..2; var e = 10 in 5..10; var f = 0 in -4..0;";
    let file = of(start, &[(0, 1), (-1, 1), (0, 3), (-2, 2), (5, 10), (-4, 0)]);
    add("down from 3,599 and back", both, file, frames, &[]);

    // From 1,799 to 1,800, where all six values change, and back.
    let start = "var a = 0 in 0..1; var b = 1 in -1..1; var c = 3 in 0..3; \
                 var d = 2 in -2..2; var e = 10 in 5..10; var f = 0 in -4..0;";
    let file = of(start, &[(0, 1), (-1, 1), (0, 3), (-2, 2), (5, 10), (-4, 0)]);
    add("from 1,799 to 1,800 and back", both, file, "000001 010101 000001", &[]);

    // Round from the highest, 4,094, to 0: the one state from which guard 1 is made true.
    let start = "var a = 3 in -3..3; var b = 4 in -4..4; var c = 6 in -6..6; var d = 2 in -2..2;";
    let round = up(&[(-3, 3), (-4, 4), (-6, 6), (-2, 2)], "");
    let regions = [&format!("waituntil (true) {{ {round} }}"), &from(&[-3, -4, -6, -2], "")];
    let file = plain(start, &regions.map(String::as_str));
    add("round from 4,094 to 0", "00010001", file, "000100 010001 000101", &[]);
}

/// Tries, and from which state they are broken.
fn tries(add: &mut Add) {
    // From 4,095 to 15.
    let regions = [STAY, &from(&[127, 15], "a := -128;")];
    let broken = file(WIDE_FIRST, "true", &["a > -128 || b < 15"], &regions);
    add("a try broken from 4,095 alone", "", broken, "000001 010100", &[]);

    // From 0 to 4,080.
    let regions = [STAY, &from(&[-128, 0], "a := 127;")];
    let broken = file(WIDE_FIRST, "true", &["a < 127 || b > 0"], &regions);
    add("a try broken from 0 alone", "", broken, "000001 010100", &[]);

    // b at -84 is digit 44: 256 + 44 = 300, which is 012C.
    let region = from(&[1, -84], "a := 2;");
    let broken = file(WIDE_LAST, "true", &["a != 2"], &[&region]);
    add("a try broken from 300", "", broken, "000000", &[0, 44, 255, 256, 300, 4095]);

    // The same, and then from 2 * 256 + 255 = 767, which is 02FF.
    let regions = [from(&[1, -84], "a := 2;"), from(&[2, 127], "a := 15;")];
    let facts = ["a != 2", "a != 15", "a < 16", "a > 0"];
    let broken = file(WIDE_LAST, "true", &facts, &regions.each_ref().map(String::as_str));
    add("one a pass, from 300 and from 767", "", broken, "000000 010100", &[]);

    // Each step is one number on, and from 4,095 to 0.
    let not = |values: &[i64]| format!("!({})", at(values));
    let facts = [not(&[0, 1, 0, 0, 0, 0]), not(&[3; 6]), "f < 4".into()];
    let round = format!("waituntil (true) {{ {} }}", up(&[(0, 3); 6], ""));
    let facts = facts.each_ref().map(String::as_str);
    let broken = file(SIX_OF_4, "true", &facts, &[STAY, &round]);
    add("tries broken from 255 and from 4,094", "", broken, "010101 010101", &[]);
    let start = "var a = 0 in 0..63; var b = 1 in 0..63;";
    let round = format!("waituntil (true) {{ {} }}", up(&[(0, 63), (0, 63)], ""));
    let broken = file(start, "true", &[&not(&[0, 0])], &[STAY, &round]);
    add("a try broken by going round", "", broken, "010101 010101", &[]);

    // 4,095 is left out by the try, which nothing breaks.
    let fault = from(&[63, 63], "a := 64;");
    let fact = ["a < 63 || b < 63"];
    let regions = [&fault, "waituntil (a < 62) { a := a + 1; }"];
    let left_out = file(BY_64, "true", &fact, &regions);
    add("a chosen try leaves out 4,095", "", left_out, "000000 010101", &[]);
    // It is broken from 62 * 64 + 63 = 4,031, which is 0FBF, and the fault stays.
    let regions = [&fault, "waituntil (a < 63) { a := a + 1; }"];
    let falls = file(BY_64, "true", &fact, &regions);
    add("a try falls and 4,095 is told", "0900000FFF", falls, "000000 010101", &[]);

    // The first holds at 4,095 alone and is broken from there; then the second from 4,094.
    let regions = [from(&[63, 63], "b := 62;"), from(&[63, 62], "a := 0;")];
    let facts = ["a == 63 && b == 63", "a > 0"];
    let broken = file(BY_64_HIGHEST, "true", &facts, &regions.each_ref().map(String::as_str));
    add("a try that holds at 4,095 alone", "00010100", broken, "000100 010001 000101", &[]);
}

/// Start values at the highest state.
fn starts(add: &mut Add) {
    // No other state is kept, so region 1 has no fault.
    let regions = [STAY, "waituntil (a < 63) { a := 64; }"];
    let kept = file(BY_64_HIGHEST, &at(&[63, 63]), &[], &regions);
    add("4,095 alone is kept", "", kept, "000001 010100", &[0, 4094, 4095]);

    // `monitor m { ` has 12 bytes and each variable 21: keep is at 54, which is 0036.
    let regions = [STAY, "waituntil (a < 63) { a := a + 1; }"];
    let not_kept = file(BY_64_HIGHEST, "a < 63 || b < 63", &[], &regions);
    add("4,095 alone is not kept", "0800360000", not_kept, "", &[0, 4094, 4095]);

    // From 4,095 to 0, where guard 1 is made true, and back; each leaves its guard false.
    let start = "var a = 127 in -128..127; var b = 15 in 0..15;";
    let regions = [from(&[127, 15], "a := -128; b := 0;"), from(&[-128, 0], "a := 127; b := 15;")];
    let turns = plain(start, &regions.each_ref().map(String::as_str));
    let frames = "000100 010001 000101 020001 030101";
    add("from 4,095 to 0 and back", "00010100 01000100", turns, frames, &[]);
}

/// Refusal 7: products that would be small again if they were kept to sixteen bits. The variable
/// that takes the product above 4,096 is told; `monitor m { ` has 12 bytes.
fn products(add: &mut Add) {
    let of = |ranges: &[&str]| {
        let variables: Vec<String> = NAMES
            .iter()
            .zip(ranges)
            .map(|(name, range)| format!("var {name} = 0 in {range};"))
            .collect();
        plain(&variables.join(" "), &[STAY])
    };
    let whole = "-128..127";
    // 65,536, which sixteen bits would make 0. A variable has 24 bytes: 36 is 0024.
    add("256 by 256", "0700240000", of(&[whole; 2]), "", &[]);
    add("256 by 256 by 1", "0700240000", of(&[whole, whole, "0..0"]), "", &[]);
    // 4,096 and then 65,536: 12 + 2 * 20 = 52, which is 0034.
    add("64 by 64 by 16", "0700340000", of(&["0..63", "0..63", "0..15"]), "", &[]);
    // 69,632, which sixteen bits would make 4,096.
    add("64 by 64 by 17", "0700340000", of(&["0..63", "0..63", "0..16"]), "", &[]);
    // 4,097 and 4,352: just above.
    add("241 by 17", "0700240000", of(&["-120..120", "0..16"]), "", &[]);
    add("256 by 17", "0700240000", of(&[whole, "0..16"]), "", &[]);
    // 4,096 and then 65,536: 12 + 3 * 20 = 72, which is 0048.
    add("four of 16", "0700480000", of(&["0..15"; 4]), "", &[]);
    // 4,096, 32,768 and 262,144: 12 + 4 * 19 = 88, which is 0058.
    add("six of 8", "0700580000", of(&["0..7"; 6]), "", &[]);
    // 4,096 * 256, sixteen times 65,536: 12 + 24 + 20 = 56, which is 0038.
    add("256 by 16 by 256", "0700380000", of(&[whole, "0..15", whole]), "", &[]);
    // 4,096 with the fifth and 65,536 with the sixth: 12 + 4 * 19 + 20 = 108, which is 006C.
    let sixth = ["0..3", "0..3", "0..3", "0..3", "0..15", "0..15"];
    add("65,536 with the sixth", "07006C0000", of(&sixth), "", &[]);
    // 4,095 and then 69,615, which sixteen bits would make 4,079: 12 + 20 + 20 + 20 + 20 = 92,
    // which is 005C.
    let fifth = ["-3..3", "-4..4", "-6..6", "-2..2", "0..16"];
    add("4,095 by 17", "07005C0000", of(&fifth), "", &[]);
    // 4,096, 4,096 and 4,095 states: none too many.
    add("256 by 16 by 1", "", of(&[whole, "0..15", "0..0"]), "000001", &[]);
    add("16 by 16 by 16", "", of(&["0..15"; 3]), "000001", &[]);
    add("63 by 65", "", of(&["-62..0", "-32..32"]), "000001", &[]);
}

/// Variables with one value, which neither weigh nor make the others weigh more.
fn of_size_1(add: &mut Add) {
    // Weights 4,096, 64 and 1: 63 * 64 + 63, and 64 + 2 = 66, which is 0042.
    let first = "var a = 5 in 5..5; var b = 0 in 0..63; var c = 0 in 0..63;";
    let file = faulty(first, &[5, 63, 63], "a := 6;");
    add("size 1 first, 4,095", "0900010FFF", file, "", &[0, 63, 64, 66, 256, 4095]);
    add("size 1 first, 66", "0900010042", faulty(first, &[5, 1, 2], "a := 4;"), "", &[]);
    // Weights 64, 64 and 1.
    let middle = "var a = 0 in 0..63; var b = -7 in -7..-7; var c = 0 in 0..63;";
    let file = faulty(middle, &[63, -7, 63], "b := -8;");
    add("size 1 in the middle, 4,095", "0900010FFF", file, "", &[0, 63, 64, 66, 256, 4095]);
    add("size 1 in the middle, 66", "0900010042", faulty(middle, &[1, -7, 2], "b := 0;"), "", &[]);
    // Weights 64, 1 and 1.
    let last = "var a = 0 in 0..63; var b = 0 in 0..63; var c = 127 in 127..127;";
    let file = faulty(last, &[63, 63, 127], "c := 128;");
    add("size 1 last, 4,095", "0900010FFF", file, "", &[0, 63, 64, 66, 256, 4095]);
    add("size 1 last, 66", "0900010042", faulty(last, &[1, 2, 127], "c := 0;"), "", &[]);
    // One state.
    let one = "var a = -128 in -128..-128; var b = 127 in 127..127;";
    add("one state", "0900010000", faulty(one, &[-128, 127], "b := 0;"), "", &[0]);
}

/// Those of which states are asked, as text: of each its number and what it is there for; the
/// file; the asked states; what is told of each, its number in four digits and each value plus
/// 128 in two. Lists have blanks between, and an empty line ends a case.
pub fn list() -> String {
    let mut text = String::new();
    let listed = numbered().into_iter().filter(|one| !one.asked.is_empty());
    for (number, Numbered { what, asked, case, .. }) in listed.enumerate() {
        let told: Vec<String> = asked.iter().map(|state| told(&case.monitor, *state)).collect();
        let asked: Vec<String> = asked.iter().map(usize::to_string).collect();
        text += &format!("case {number}: {what}\n");
        text += &format!("file: {}\n", on_a_line(&case.monitor));
        text += &format!("states: {}\n", asked.join(" "));
        text += &format!("told: {}\n\n", told.join(" "));
    }
    text
}

/// What the list tells of a state: the number of its values, and these.
fn told(file: &[u8], state: usize) -> String {
    let tokens = tokens(file).expect("tokens");
    let variables = grammar::read(&tokens, file.len()).expect("a file of the grammar").variables;
    assert!(state < count_of_states(&variables));
    let values = state_values(&variables, state);
    let digits: String = values.iter().map(|value| format!("{:02X}", value + 128)).collect();
    format!("{:04X}{digits}", state_number(&variables, &values))
}
