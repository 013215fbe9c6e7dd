//! What a file has and where, and its states: `outline`, `state_at` and `number_of` on files
//! whose bytes are counted by hand, and as a property beside the grammar's reader.

mod common;
use std::ops::Range;

use common::{file, places, regions, BOX};
use reference::cases::{make_case, Size};
use reference::grammar;
use reference::hostile::Bases;
use reference::outline::{
    number_of, outline, state_at, After, Method, Outline, Region, State, Variable,
};
use reference::tokens::{tokens, Token};

fn variable(name: Range<usize>, [start, lowest, highest]: [i64; 3]) -> Variable {
    Variable { name, start, lowest, highest }
}

fn method(name: Range<usize>, first: usize) -> Method {
    Method { name, first }
}

fn region(guard: Range<usize>, body: Range<usize>, number: usize) -> Region {
    Region { guard, body, number }
}

/// Wants this outline of an accepted file.
fn wants(file: &[u8], wanted: Outline) {
    assert_eq!(outline(file), (Ok(()), Some(wanted)));
}

/// The state, of a file that has the answer.
fn state(file: &str, answer: (u8, usize, usize), number: usize) -> Option<State> {
    let (verdict, told) = state_at(file.as_bytes(), number);
    assert_eq!(places(verdict), answer);
    told
}

/// The values with numbers behind them that must not be read.
fn filled(values: &[i64]) -> [i64; 6] {
    let mut all = [9_999; 6];
    all[..values.len()].copy_from_slice(values);
    all
}

// The lines of Box begin at the bytes 0, 14, 38, 51 and 105.
#[test]
fn outline_of_box() {
    let wanted = Outline {
        title: 8..11,
        keep: 44..49,
        tries: Vec::new(),
        variables: vec![variable(20..24, [0, 0, 1])],
        methods: vec![method(60..63, 0), method(114..117, 1)],
        regions: vec![region(77..86, 89..101, 0), region(131..140, 143..155, 1)],
        guards: 2,
        states: 2,
        start: 0,
    };
    wants(include_bytes!("../../examples/box/monitor.txt"), wanted);
}

// The lines of breaker begin at the bytes 0, 18, 41, 67, 93, 118, 142, 182, 270, 310, 401,
// 490, 581 and 645.
#[test]
fn outline_of_breaker() {
    let wanted = Outline {
        title: 8..15,
        keep: 148..308,
        tries: Vec::new(),
        variables: vec![
            variable(24..27, [0, 0, 3]),
            variable(47..53, [0, 0, 1]),
            variable(73..79, [0, 0, 3]),
            variable(99..104, [0, 0, 3]),
            variable(124..128, [0, 0, 1]),
        ],
        methods: vec![
            method(319..326, 0),
            method(410..415, 1),
            method(499..506, 2),
            method(590..596, 3),
            method(654..658, 4),
        ],
        regions: vec![
            region(340..353, 356..397, 0),
            region(429..442, 445..486, 0),
            region(520..533, 536..577, 0),
            region(610..622, 625..641, 1),
            region(672..700, 703..734, 2),
        ],
        guards: 3,
        states: 256,
        start: 0,
    };
    wants(include_bytes!("../../examples/breaker/monitor.txt"), wanted);
}

/// Blanks everywhere and nowhere, brackets and braces in others, numbers with noughts before
/// them, two regions in one method with one guard. Behind each line: the byte at which the
/// next begins.
#[test]
fn outline_with_blanks_brackets_and_noughts() {
    let file = [
        "\n monitor\n",                                // 10
        "\tm\r\n{\n",                                  // 16
        "var\nx\n=\n-\n002\nin\n-\n007\n..\n001\n;\n", // 48
        "keep\n\n( \ttrue )\n;\n",                     // 66
        "method\nput\n{\n",                            // 79
        "waituntil\n(\n( x == 007 )\n)\n{\n}\n",       // 110
        "waituntil((x==7)){}",                         // 129
        "}method get{",                                // 141
        "waituntil(!(true)&&(x<1||(false)))",          // 175
        "{if(x==1){if(true){}else{x:=0;}}}",           // 208
        "}}\n\n",
    ];
    let wanted = Outline {
        title: 11..12,
        keep: 52..64,
        tries: Vec::new(),
        variables: vec![variable(20..21, [-2, -7, 1])],
        methods: vec![method(73..76, 0), method(137..140, 2)],
        regions: vec![
            region(90..104, 107..108, 0),
            region(120..126, 128..128, 0),
            region(151..174, 176..207, 1),
        ],
        guards: 2,
        states: 9,
        start: 5,
    };
    wants(file.concat().as_bytes(), wanted);
}

/// Semicolons, words and brackets near those that count: a monitor, a variable and methods
/// with names that begin as reserved words do.
#[test]
fn names_like_reserved_words() {
    let file = "monitor keeper{var vary=0 in 0..1;var keeps=1 in 1..2;keep vary==0||keeps<9;\
        method methods{waituntil(true){vary:=1;}}method var_{waituntil(vary==1){keeps:=2;}}}";
    let wanted = Outline {
        title: 8..14,
        keep: 58..75,
        tries: Vec::new(),
        variables: vec![variable(19..23, [0, 0, 1]), variable(38..43, [1, 1, 2])],
        methods: vec![method(83..90, 0), method(124..128, 1)],
        regions: vec![region(101..105, 107..115, 0), region(139..146, 148..157, 1)],
        guards: 2,
        states: 4,
        start: 0,
    };
    wants(file.as_bytes(), wanted);
}

/// Each try from the byte behind its word up to its semicolon, blanks included. Behind each
/// line: the byte at which the next begins.
#[test]
fn outline_with_tries() {
    let file = [
        "monitor m{var x=0 in 0..1;", // 26
        "keep true;",                 // 36
        "try x==0;",                  // 45
        "try\n\t(x < 1)\n; \n",       // 61
        "try!x==1;try  x==0||true;",  // 86
        "method n{waituntil(x==0){}}}",
    ];
    let wanted = Outline {
        title: 8..9,
        keep: 30..35,
        tries: vec![39..44, 48..58, 64..69, 73..85],
        variables: vec![variable(14..15, [0, 0, 1])],
        methods: vec![method(93..94, 0)],
        regions: vec![region(105..109, 111..111, 0)],
        guards: 1,
        states: 2,
        start: 0,
    };
    wants(file.concat().as_bytes(), wanted);
}

/// Where a chosen try does not hold, a state is not kept and no body runs; where a dropped
/// one does not, it is and does. Beside 9 too.
#[test]
fn states_with_tries() {
    use After::{Ends, Fault, Never};
    let up = "waituntil (x < 2) { x := x + 1; }";
    let over = "waituntil (x > 1) { x := x + 2; }";
    let kept = |keep: &str, answer, wanted: [(bool, [After; 2]); 4]| {
        let file = regions(keep, &[up, over]);
        for (number, (kept, after)) in wanted.into_iter().enumerate() {
            let told = state(&file, answer, number).unwrap();
            assert_eq!((told.kept, told.after), (kept, after.to_vec()), "{keep}, {number}");
        }
        assert_eq!(state(&file, answer, 4), None);
    };
    let [zero, one] = [[Ends(1), Never], [Ends(2), Never]];
    let faults = [Never, Fault];
    kept("true", (9, 1, 2), [(true, zero), (true, one), (true, faults), (true, faults)]);
    let tries = "true; try x == 0; try x < 3";
    kept(tries, (9, 1, 2), [(true, zero), (true, one), (true, faults), (false, [Never; 2])]);
    let tries = "x < 2; try x == 1; try x < 3";
    let not = (false, [Never; 2]);
    kept(tries, (9, 0, 1), [(true, zero), (true, one), not, not]);
    // Refused with 8: no state is told.
    let file = regions("x == 1; try true", &[up]);
    assert_eq!(state(&file, (8, 31, 0), 1), None);
}

/// Refused with 8, at the byte 40 of `keep`: its outline and numbers are told, no state is.
#[test]
fn refused_with_8() {
    let file = include_str!("../../examples/box/monitor.txt").replace("true", "full == 1");
    let (verdict, told) = outline(file.as_bytes());
    assert_eq!(places(verdict), (8, 40, 0));
    let told = told.unwrap();
    assert_eq!(told.keep, 44..54);
    assert_eq!(told.methods, [method(65..68, 0), method(119..122, 1)]);
    assert_eq!((told.regions.len(), told.guards, told.states, told.start), (2, 2, 2, 0));
    for number in [0, 1, 2, usize::MAX] {
        assert_eq!(state(&file, (8, 40, 0), number), None);
    }
    let (verdict, number) = number_of(file.as_bytes(), filled(&[1]));
    assert_eq!((places(verdict), number), ((8, 40, 0), Some(1)));
}

/// Refused with 9 by region 0 from state 1, a fault: all is told.
#[test]
fn refused_with_9_by_a_fault() {
    let file = "monitor m{var x=1 in 0..1;keep true;method n{waituntil(true){x:=x+1;x:=0;}}}";
    let answer = (9, 0, 1);
    let (verdict, told) = outline(file.as_bytes());
    assert_eq!(places(verdict), answer);
    let told = told.unwrap();
    assert_eq!((told.title, told.keep, told.start), (8..9, 30..35, 1));
    assert_eq!(told.regions, [region(55..59, 61..73, 0)]);
    let at = |values: i64, after| State {
        kept: true,
        values: vec![values],
        holds: vec![true],
        after: vec![after],
    };
    assert_eq!(state(file, answer, 0), Some(at(0, After::Ends(0))));
    assert_eq!(state(file, answer, 1), Some(at(1, After::Fault)));
    assert_eq!(state(file, answer, 2), None);
    assert_eq!(number_of(file.as_bytes(), filled(&[1])).1, Some(1));
}

/// Refused with 9, as the body ends where the kept condition does not hold: that state is
/// told as any other. Where it does not hold no body runs, though its guard holds.
#[test]
fn refused_with_9_by_the_kept_condition() {
    let file = regions("x < 2", &["waituntil (true) { x := x + 1; }", "waituntil (x > 1) { }"]);
    let at = |number: usize, kept, holds: [bool; 2], after: [After; 2]| {
        let wanted =
            State { kept, values: vec![number as i64], holds: holds.into(), after: after.into() };
        assert_eq!(state(&file, (9, 0, 1), number), Some(wanted));
    };
    at(0, true, [true, false], [After::Ends(1), After::Never]);
    at(1, true, [true, false], [After::Ends(2), After::Never]);
    at(2, false, [true, true], [After::Never; 2]);
    at(3, false, [true, true], [After::Never; 2]);
    assert_eq!(state(&file, (9, 0, 1), 4), None);
}

/// A part of a tree, without the bytes at which each `mod` stands.
fn shown(part: &impl std::fmt::Debug) -> String {
    let text = format!("{part:?}");
    let mut parts = text.split("place: ");
    let first = parts.next().unwrap().to_string();
    first + &parts.map(|part| part.trim_start_matches(char::is_numeric)).collect::<String>()
}

/// Beside 1 to 7 and 15 nothing is told.
#[test]
fn nothing_beside_1_to_7_and_15() {
    let seven = |word: &str| file(&word.repeat(7), "true", "method a { waituntil (true) { } }");
    let files = [
        (1, " ".repeat(8_193)),
        (2, format!("{BOX}#")),
        (3, "(".repeat(13)),
        (4, String::new()),
        (4, format!("{BOX} x")),
        (5, seven("var x = 0 in 0..1; ")),
        (6, BOX.replace("full := 1", "empty := 1")),
        (7, BOX.replace("0 in", "2 in")),
        (15, BOX.replace("keep true", "keep 1 mod full == 0")),
        (15, BOX.replace("keep true", "keep false; try 1 mod 0 == 0")),
        (15, BOX.replace("full == 1", "full == 1 && 1 mod full == 0")),
    ];
    for (number, file) in files {
        let file = file.as_bytes();
        assert_eq!(places(outline(file).0).0, number);
        assert_eq!(outline(file).1, None);
        for start in [0, 1, usize::MAX] {
            assert_eq!(state_at(file, start).1, None);
        }
        for values in [[0; 6], [1; 6]] {
            assert_eq!(number_of(file, values).1, None);
        }
        assert_eq!(state_at(file, 0).0, outline(file).0);
        assert_eq!(number_of(file, [0; 6]).0, outline(file).0);
    }
}

/// In breaker seq weighs 64, closed 32, logged 8, shown 2 and lamp 1.
#[test]
fn states_of_breaker() {
    use After::{Ends, Never};
    let file = include_str!("../../examples/breaker/monitor.txt");
    let at = |number, kept, values: [i64; 5], holds: [bool; 3], after: [After; 5]| {
        let wanted =
            State { kept, values: values.into(), holds: holds.into(), after: after.into() };
        assert_eq!(state(file, (0, 0, 0), number), Some(wanted));
        assert_eq!(number_of(file.as_bytes(), filled(&values)), (Ok(()), Some(number)));
    };
    let first = [Ends(96), Ends(128), Ends(224), Never, Never];
    at(0, true, [0, 0, 0, 0, 0], [true, false, false], first);
    // Lit, and open.
    at(1, false, [0, 0, 0, 0, 1], [true, false, false], [Never; 5]);
    let unlogged = [Never, Never, Never, Ends(104), Never];
    at(96, true, [1, 1, 0, 0, 0], [false, true, false], unlogged);
    let logged = [Ends(104), Ends(136), Ends(232), Never, Ends(107)];
    at(104, true, [1, 1, 1, 0, 0], [true, false, true], logged);
    let last = [Ends(255), Ends(255), Ends(255), Never, Never];
    at(255, true, [3, 1, 3, 3, 1], [true, false, false], last);
    for number in [256, 4_096, 65_535, 65_536, usize::MAX] {
        assert_eq!(state(file, (0, 0, 0), number), None);
    }
}

/// Each value is held to the range of its own variable, and the numbers behind the
/// variables are not read.
#[test]
fn numbers_of_values() {
    let variables = "var a = 0 in -1..1; var b = 5 in 5..6;";
    let file = file(variables, "true", "method m { waituntil (true) { } }");
    let number = |values: [i64; 6]| number_of(file.as_bytes(), values);
    let all = [(-1, 5), (-1, 6), (0, 5), (0, 6), (1, 5), (1, 6)];
    for (wanted, (a, b)) in all.into_iter().enumerate() {
        for behind in [0, -128, 127, 65_407, i64::MIN] {
            assert_eq!(number([a, b, behind, behind, behind, behind]), (Ok(()), Some(wanted)));
        }
    }
    for (a, b) in [(-2, 5), (2, 5), (0, 4), (0, 7), (5, 0), (-128, 5), (65_407, 5), (0, i64::MAX)] {
        assert_eq!(number([a, b, 0, 0, 0, 0]), (Ok(()), None));
    }
}

/// What the reader of the grammar reads in what the outline cuts out.
#[test]
fn what_is_cut_out_is_what_is_read() {
    let mut bases = Bases::of(5);
    let small = (0..200).map(|number| make_case(21, number, Size::SMALL));
    let full = (0..100).map(|number| make_case(22, number, Size::FULL));
    let files: Vec<Vec<u8>> = small
        .chain(full)
        .chain((0..300).map(|number| bases.input(number)))
        .map(|case| case.monitor)
        .collect();
    let mut told_of = 0;
    let mut tried = 0;
    for file in &files {
        let (verdict, Some(told)) = outline(file) else { continue };
        assert!(matches!(places(verdict).0, 0 | 8 | 9));
        told_of += 1;
        let text = |at: &Range<usize>| &file[at.clone()];
        let cut = |at: &Range<usize>| texts(&tokens(text(at)).unwrap());
        let tree = grammar::read(&tokens(file).unwrap(), file.len()).unwrap();
        assert_eq!(texts(&tokens(file).unwrap())[1], text(&told.title));
        assert_eq!(file[tree.keep_place..told.keep.start], *b"keep");
        assert_eq!(file[told.keep.end], b';');
        assert_eq!(told.tries.len(), tree.tries.len());
        tried += tree.tries.len();
        for (at, read) in told.tries.iter().zip(&tree.tries) {
            assert!(file[..at.start].ends_with(b"try"));
            assert_eq!(file[at.end], b';');
            // What is cut out as a try is read as the same condition.
            let alone = [
                b"monitor m{var x=0 in 0..0;keep" as &[u8],
                text(at),
                b";method m{waituntil(true){}}}",
            ];
            let alone = alone.concat();
            let again = grammar::read(&tokens(&alone).unwrap(), alone.len()).unwrap();
            assert_eq!(shown(&again.keep), shown(read));
        }
        let names = |ats: Vec<&Range<usize>>| -> Vec<Vec<u8>> {
            ats.into_iter().map(|at| text(at).to_vec()).collect()
        };
        let declared: Vec<Vec<u8>> = tree.variables.iter().map(|v| v.name.clone()).collect();
        assert_eq!(names(told.variables.iter().map(|v| &v.name).collect()), declared);
        let mut first = 0;
        assert_eq!(told.methods.len(), tree.methods.len());
        for (method, read) in told.methods.iter().zip(&tree.methods) {
            assert_eq!(method.first, first);
            assert_eq!(cut(&method.name).len(), 1);
            first += read.len();
        }
        assert_eq!(told.regions.len(), first);
        for (region, read) in told.regions.iter().zip(tree.methods.concat()) {
            assert_eq!(cut(&region.guard), texts(&read.guard_tokens));
            // What is cut out as a body is read as the same body.
            let alone = [b"monitor m{var x=0 in 0..0;keep true;method m{waituntil(true){" as &[u8]]
                .into_iter()
                .chain([text(&region.body), b"}}}"])
                .collect::<Vec<_>>()
                .concat();
            let again = grammar::read(&tokens(&alone).unwrap(), alone.len()).unwrap();
            assert_eq!(shown(&again.methods[0][0].body), shown(&read.body));
        }
        let numbers: Vec<usize> = told.regions.iter().map(|region| region.number).collect();
        assert_eq!(numbers.iter().max(), Some(&(told.guards - 1)));
    }
    assert!(told_of > files.len() / 3 && tried > told_of / 2, "{told_of} {tried}");
}

fn texts(tokens: &[Token]) -> Vec<Vec<u8>> {
    tokens.iter().map(|token| token.text.clone()).collect()
}
