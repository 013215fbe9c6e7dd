//! Damaged files.

use super::{about, any_kind, Source};
use crate::cases::damage::{any_bytes, damage_bytes, damage_tokens};
use crate::cases::draws::Draws;
use crate::cases::words::{blanks, integer, laid_out, words, Layout, Words};
use crate::limits::{
    MOST_BYTES, MOST_DEPTH, MOST_METHODS, MOST_REGIONS, MOST_TOKENS, MOST_TRIES, MOST_VARIABLES,
};
use crate::ranges::{HIGHEST, LOWEST, MOST_STATES};
use crate::tokens::{is_blank, tokens, LONGEST_NUMBER, LONGEST_WORD, MARKS, RESERVED};

/// What is done to a file.
#[derive(Clone, Copy)]
enum Kind {
    /// Nothing: the trace alone is hostile.
    Whole,
    /// Another case of the generator, refused or not.
    Other,
    /// Single bytes flipped, removed, inserted, swapped, or the file cut off there.
    Bytes,
    /// Runs of bytes removed, doubled, moved; two files joined.
    Parts,
    /// Other blanks, and bytes that look like blanks and are none.
    Blanks,
    /// Single tokens removed, inserted, swapped, doubled, replaced.
    Tokens,
    /// Runs of tokens doubled, moved, put in any order.
    Phrases,
    /// A token for another one that may stand in its place.
    Meaning,
    /// A name for another one of the file, or for one that is nearly the same.
    Names,
    /// Another kept condition, or statements that may leave a range.
    Claims,
    /// Tries added, moved, doubled, cut, swapped.
    Tries,
    /// `mod` put in, doubled, cut; other divisors and left sides; ranges from 0 and from 1.
    Remainders,
    /// Other guards and left sides; bodies emptied, or put into an `if` or an `else`.
    Touches,
    /// Long runs of brackets, `!`, `||`, statements and the like.
    Runs,
    /// Words and numbers about their greatest length, or nearly reserved.
    Spelling,
    /// Ranges about -128 to 127, and about 4,096 states.
    Ranges,
    /// About 6 variables, 16 tries, 8 methods, 16 regions.
    Declarations,
    /// Filled up to about 8,192 bytes, or far more.
    Length,
    /// Any bytes, any bytes of tokens, any tokens.
    Any,
}

const SHARES: [(Kind, usize); 19] = [
    (Kind::Whole, 28),
    (Kind::Other, 3),
    (Kind::Bytes, 5),
    (Kind::Parts, 4),
    (Kind::Blanks, 2),
    (Kind::Tokens, 5),
    (Kind::Phrases, 3),
    (Kind::Meaning, 11),
    (Kind::Names, 4),
    (Kind::Claims, 8),
    (Kind::Tries, 7),
    (Kind::Remainders, 20),
    (Kind::Touches, 6),
    (Kind::Runs, 11),
    (Kind::Spelling, 5),
    (Kind::Ranges, 4),
    (Kind::Declarations, 6),
    (Kind::Length, 4),
    (Kind::Any, 3),
];

/// The file with damage of one kind, or now and then of two.
pub fn hostile(draws: &mut Draws, source: &mut Source, file: Vec<u8>) -> Vec<u8> {
    let mut file = damaged(draws, source, file);
    if draws.chance(15) {
        file = damaged(draws, source, file);
    }
    file
}

fn damaged(draws: &mut Draws, source: &mut Source, mut file: Vec<u8>) -> Vec<u8> {
    let on_tokens = match any_kind(draws, &SHARES) {
        Kind::Whole => return file,
        Kind::Other => return source.any(draws).monitor,
        Kind::Bytes => {
            for _ in 0..draws.pick(&[1, 1, 1, 2, 3, 8]) {
                damage_bytes(draws, &mut file);
            }
            return file;
        }
        Kind::Parts => {
            parts(draws, source, &mut file);
            return file;
        }
        Kind::Blanks => {
            other_blanks(draws, &mut file);
            return file;
        }
        Kind::Length => {
            filled(draws, &mut file);
            return file;
        }
        Kind::Any => {
            let most = draws.pick(&[20, 300, 300, 9_000]);
            return any_bytes(draws, most);
        }
        Kind::Tokens => damage_some_tokens,
        Kind::Phrases => phrases,
        Kind::Meaning => other_meaning,
        Kind::Names => names,
        Kind::Claims => claims,
        Kind::Tries => tries,
        Kind::Remainders => remainders,
        Kind::Touches => touches,
        Kind::Runs => runs,
        Kind::Spelling => spelling,
        Kind::Ranges => other_ranges,
        Kind::Declarations => declarations,
    };
    let mut file = words_of(&file);
    if !file.is_empty() {
        on_tokens(draws, &mut file);
    }
    let layout = draws.pick(&[Layout::Tight, Layout::Single, Layout::Loose]);
    laid_out(draws, &file, layout)
}

/// The tokens of a file; none if it cannot be cut into tokens.
fn words_of(file: &[u8]) -> Words {
    let tokens = tokens(file).unwrap_or_default();
    tokens.into_iter().map(|token| String::from_utf8(token.text).expect("ASCII")).collect()
}

/// A run of a list, as two places in it.
fn any_run(draws: &mut Draws, length: usize) -> (usize, usize) {
    let start = draws.count(0, length);
    let most = draws.pick(&[4, 40, length]).min(length - start);
    (start, start + draws.count(0, most))
}

fn parts(draws: &mut Draws, source: &mut Source, file: &mut Vec<u8>) {
    let (start, end) = any_run(draws, file.len());
    let run = file[start..end].to_vec();
    let place = draws.count(0, file.len());
    match draws.below(7) {
        0 => drop(file.drain(start..end)),
        1 => drop(file.splice(end..end, run)),
        2 => drop(file.splice(place..place, run)),
        3 => file[start..end].reverse(),
        4 => file[start..end].fill(draws.byte()),
        5 => file.extend(source.any(draws).monitor),
        _ => {
            // The head of one file and the tail of another.
            let other = source.any(draws).monitor;
            let from = draws.count(0, other.len());
            file.truncate(place);
            file.extend(&other[from..]);
        }
    }
}

fn other_blanks(draws: &mut Draws, file: &mut Vec<u8>) {
    let places: Vec<usize> = (0..file.len()).filter(|place| is_blank(file[*place])).collect();
    let blank = draws.pick(b"\t\n\r\x00\x08\x0B\x0B\x0C\x0E\x1F\x7F\x85\xA0");
    match draws.below(4) {
        // All of them, or one.
        0 => places.into_iter().for_each(|place| file[place] = blank),
        1 if !places.is_empty() => file[draws.pick(&places)] = blank,
        2 => file.push(blank),
        _ => file.insert(0, blank),
    }
}

/// Fills a file up with blanks, with bytes of tokens or with any bytes.
fn filled(draws: &mut Draws, file: &mut Vec<u8>) {
    let length = match draws.below(8) {
        0 => draws.count(MOST_BYTES, 70_000),
        _ => about(draws, MOST_BYTES),
    };
    let missing = length.saturating_sub(file.len());
    let filler = match draws.below(6) {
        0 => vec![draws.byte(); missing],
        1 => (0..missing).map(|_| draws.byte()).collect(),
        2 => (0..missing).map(|_| draws.pick(b"{}();=!<>+- \n")).collect(),
        _ => blanks(draws, missing),
    };
    // At an end, or where two tokens may have a blank between them.
    let gaps: Vec<usize> = (0..file.len()).filter(|at| b"{};".contains(&file[*at])).collect();
    let place = match draws.below(3) {
        0 => 0,
        1 if !gaps.is_empty() => draws.pick(&gaps),
        _ => file.len(),
    };
    file.splice(place..place, filler);
}

fn damage_some_tokens(draws: &mut Draws, file: &mut Words) {
    for _ in 0..draws.pick(&[1, 1, 1, 2, 5]) {
        damage_tokens(draws, file);
    }
}

fn phrases(draws: &mut Draws, file: &mut Words) {
    let (start, end) = any_run(draws, file.len());
    let run = file[start..end].to_vec();
    match draws.below(5) {
        0 => drop(file.drain(start..end)),
        1 => drop(file.splice(end..end, run)),
        2 => {
            let place = draws.count(0, file.len());
            file.splice(place..place, run);
        }
        3 => file[start..end].reverse(),
        _ => {
            for place in start..end {
                let other = draws.count(start, end - 1);
                file.swap(place, other);
            }
        }
    }
}

/// The names that a file declares as variables.
fn variables_of(file: &Words) -> Words {
    let declared = file.windows(2).filter(|pair| pair[0] == "var");
    declared.map(|pair| pair[1].clone()).collect()
}

fn other_meaning(draws: &mut Draws, file: &mut Words) {
    let variables = variables_of(file);
    let sorts: [&[&str]; 4] = [
        &["==", "!=", "<", "<=", ">", ">="],
        &["+", "-", "mod"],
        &["&&", "||"],
        &["true", "false"],
    ];
    for _ in 0..draws.pick(&[1, 1, 2, 4]) {
        let place = draws.below(file.len());
        let token = file[place].clone();
        if let Some(sort) = sorts.iter().find(|sort| sort.contains(&token.as_str())) {
            file[place] = draws.pick(sort).into();
        } else if token.parse::<u32>().is_ok() {
            file[place] = draws.pick(&["0", "1", "2", "3", "10", "63", "127", "128"]).into();
        } else if variables.contains(&token) {
            file[place] = draws.pick(&variables);
        }
    }
}

fn is_name(token: &str) -> bool {
    token.as_bytes()[0].is_ascii_alphabetic() && !RESERVED.contains(&token)
}

fn names(draws: &mut Draws, file: &mut Words) {
    let places: Vec<usize> = (0..file.len()).filter(|place| is_name(&file[*place])).collect();
    if places.is_empty() {
        return;
    }
    let [place, other] = [0, 1].map(|_| draws.pick(&places));
    let [name, other] = [place, other].map(|place| file[place].clone());
    match draws.below(5) {
        0 => file[place] += draws.pick(&["_", "0", "a"]),
        1 => file[place] = draws.pick(&["True", "Keep", "x", "IN"]).into(),
        2 => file[place] = other,
        // Two names that differ in their last byte alone, everywhere.
        _ => {
            let stem = "n".repeat(draws.pick(&[1, 8, LONGEST_WORD - 2, LONGEST_WORD - 1]));
            for token in file {
                if *token == name {
                    *token = format!("{stem}1");
                } else if *token == other {
                    *token = format!("{stem}2");
                }
            }
        }
    }
}

const KEPT: [&str; 8] = [
    "NAME mod 2 == 0",
    "false",
    "NAME > 0",
    "NAME < 1",
    "NAME == - 128",
    "NAME != NAME",
    "! ( NAME < 2 )",
    "NAME < 127",
];

const STATEMENTS: [&str; 7] = [
    "NAME := NAME + 1 ;",
    "NAME := NAME - 1 ;",
    "NAME := 127 ;",
    "NAME := - 128 ;",
    "NAME := NAME + 999 - 999 ;",
    "if ( NAME < 1 ) { NAME := NAME + 1 ; }",
    "if ( NAME > 0 ) { NAME := NAME - 1 ; } else { NAME := 0 ; }",
];

fn claims(draws: &mut Draws, file: &mut Words) {
    let name = draws.pick(&[variables_of(file), words("x")].concat());
    let kept = file.iter().position(|token| token == "keep");
    match kept {
        Some(place) if draws.chance(50) => {
            let length = file[place..].iter().position(|token| token == ";").unwrap_or(1);
            let condition = words(&draws.pick(&KEPT).replace("NAME", &name));
            file.splice(place + 1..place + length, condition);
        }
        _ => {
            let places = body_places(file);
            let place = if places.is_empty() { file.len() } else { draws.pick(&places) };
            let statement = words(&draws.pick(&STATEMENTS).replace("NAME", &name));
            file.splice(place..place, statement);
        }
    }
}

const TRIED: [&str; 9] = [
    "NAME mod 2 == 0",
    "true",
    "false",
    "NAME == NAME",
    "NAME <= 1",
    "NAME > - 1",
    "NAME != 1",
    "! ( NAME == 2 )",
    "0 == NAME || NAME == 1",
];

fn tries(draws: &mut Draws, file: &mut Words) {
    let mut found = tries_of(file);
    if found.is_empty() || draws.chance(40) {
        more_tries(draws, file);
        found = tries_of(file);
        if found.is_empty() || draws.chance(60) {
            return;
        }
    }
    let [(start, end), (other, other_end)] = [0, 1].map(|_| draws.pick(&found));
    let one = file[start..end].to_vec();
    match draws.below(8) {
        // Moved, or doubled.
        0 => {
            file.drain(start..end);
            let place = try_place(draws, file);
            file.splice(place..place, one);
        }
        1 => {
            let place = try_place(draws, file);
            file.splice(place..place, one);
        }
        2 => drop(file.splice(end..end, one)),
        // Cut: all of it, its condition, its semicolon, its `try`, or one token.
        3 => drop(file.drain(start..end)),
        4 => drop(file.drain(start + 1..end - 1)),
        5 => {
            let any = draws.count(start, end - 1);
            file.remove(draws.pick(&[start, end - 1, any]));
        }
        // Two of them swapped.
        6 if end <= other => {
            let two = file[other..other_end].to_vec();
            file.splice(other..other_end, one);
            file.splice(start..end, two);
        }
        _ => {
            let name = draws.pick(&[variables_of(file), words("try")].concat());
            let condition = words(&draws.pick(&TRIED).replace("NAME", &name));
            file.splice(start + 1..end - 1, condition);
        }
    }
}

/// Where tries stand, each from its `try` up to behind the next `;`.
fn tries_of(file: &Words) -> Vec<(usize, usize)> {
    let starts = (0..file.len()).filter(|at| file[*at] == "try");
    starts
        .filter_map(|start| {
            let length = file[start..].iter().position(|token| token == ";")?;
            Some((start, start + length + 1))
        })
        .collect()
}

/// Any number of tries up to about the limit: any ones, or such as fall one a pass, since a
/// region counts a variable up.
fn more_tries(draws: &mut Draws, file: &mut Words) {
    let present = tries_of(file).len();
    let count = match draws.below(3) {
        0 => about(draws, MOST_TRIES).saturating_sub(present),
        1 => draws.count(1, 4),
        _ => draws.count(2, 12),
    };
    let widest =
        declared(file).into_iter().max_by_key(|variable| variable.highest - variable.start);
    let conditions: Words = match widest {
        Some(mut variable) if draws.chance(60) => {
            let name = file.get(variable.place + 1).cloned().unwrap_or_default();
            let start = variable.start;
            variable.highest = variable.highest.max(start + draws.count(1, count + 1) as i64);
            counted_up(draws, file, &name, variable.highest);
            redeclare(draws, file, variable);
            let steps = 1..=count as i64;
            let value = |step| integer(draws, start + step).join(" ");
            steps.map(value).map(|value| format!("{name} != {value}")).collect()
        }
        _ => {
            let name = draws.pick(&[variables_of(file), words("x")].concat());
            (0..count).map(|_| draws.pick(&TRIED).replace("NAME", &name)).collect()
        }
    };
    // Behind `keep` and its condition.
    let Some(keep) = file.iter().position(|token| token == "keep") else { return };
    let Some(length) = file[keep..].iter().position(|token| token == ";") else { return };
    let place = keep + length + 1;
    for condition in conditions.into_iter().rev() {
        file.splice(place..place, words(&format!("try {condition} ;")));
    }
}

/// A new region counts the variable up to its highest value, and mostly nothing else changes it.
fn counted_up(draws: &mut Draws, file: &mut Words, name: &str, highest: i64) {
    let assigned = [name, ":="];
    while let Some(start) = file.windows(2).position(|two| two == assigned) {
        if draws.chance(10) {
            break;
        }
        let length = file[start..].iter().position(|token| token == ";");
        file.drain(start..length.map_or(file.len(), |length| start + length + 1));
    }
    let regions: Vec<usize> = (0..file.len()).filter(|at| file[*at] == "waituntil").collect();
    if !regions.is_empty() {
        let place = draws.pick(&regions);
        let top = integer(draws, highest).join(" ");
        let region = format!("waituntil ( {name} < {top} ) {{ {name} := {name} + 1 ; }}");
        file.splice(place..place, words(&region));
    }
}

/// Where no try may stand, mostly: before `keep`, between methods, in one, in a body, at the
/// end, or anywhere.
fn try_place(draws: &mut Draws, file: &Words) -> usize {
    let wanted = draws.pick(&["keep", "method", "waituntil", "if", "}", ";", ""]);
    let places: Vec<usize> = (0..file.len()).filter(|at| file[*at] == wanted).collect();
    match places.is_empty() {
        true => draws.count(0, file.len()),
        false => draws.pick(&places),
    }
}

/// What may stand behind `mod`, and should not.
const DIVISORS: [&str; 12] =
    ["0", "1", "2", "2", "3", "000", "- 1", "- 0", "999", "NAME", "NAME", "( NAME )"];

/// Conditions to be put before others.
const DIVIDED: [&str; 10] = [
    "NAME mod 2 == 0 ||",
    "NAME mod 3 != 1 &&",
    "- 7 mod 3 == 2 &&",
    "1 - 7 mod 3 == 0 && ! NAME mod 999 < 0 &&",
    "NAME mod OTHER == 0 ||",
    "1 mod 1 == 0 && NAME mod OTHER >= 0 &&",
    "OTHER > 0 && NAME mod OTHER == 0 ||",
    "false && NAME mod 0 == 0 ||",
    "true || NAME mod - 2 < OTHER mod 0 ||",
    "! ( NAME mod 2 + 3 mod - 0 > 1 ) ||",
];

const DIVISIONS: [&str; 8] = [
    "NAME := NAME mod OTHER ;",
    "NAME := NAME mod 2 ;",
    "NAME := - 1 mod 2 ;",
    "if ( OTHER > 0 ) { NAME := NAME mod OTHER ; }",
    "if ( OTHER > 0 && NAME mod OTHER == 0 ) { }",
    "if ( true || 1 mod 0 == 0 ) { }",
    "if ( false ) { NAME := 1 mod 0 ; }",
    "if ( NAME mod 2 == 1 ) { NAME := NAME - 1 ; } else { NAME := NAME + 1 ; }",
];

fn remainders(draws: &mut Draws, file: &mut Words) {
    let names = [variables_of(file), words("x")].concat();
    for _ in 0..draws.pick(&[1, 1, 2, 4]) {
        let [name, other] = [0, 1].map(|_| draws.pick(&names));
        let with_names = |text: &str| words(&text.replace("NAME", &name).replace("OTHER", &other));
        let divided = [words("mod"), with_names(draws.pick(&DIVISORS))].concat();
        let kind = draws.below(11);
        let keep = file.iter().position(|token| token == "keep").unwrap_or(0);
        let is_operand = |token: &String| token.parse::<u32>().is_ok() || names.contains(token);
        let places: Vec<usize> = match kind {
            0 | 1 => (keep + 1..file.len()).filter(|at| is_operand(&file[*at - 1])).collect(),
            2 => (keep..file.len()).filter(|at| ["+", "-"].contains(&&file[*at][..])).collect(),
            3 | 4 => (keep..file.len()).filter(|at| file[*at] == "mod").collect(),
            5..=7 => condition_places(file),
            8 | 9 => body_places(file),
            _ => declared(file).iter().map(|variable| variable.place).collect(),
        };
        if places.is_empty() {
            continue;
        }
        let place = draws.pick(&places);
        match kind {
            0 | 1 => drop(file.splice(place..place, divided)),
            2 => file[place] = "mod".into(),
            3 => drop(file.splice(place..(place + 2).min(file.len()), divided)),
            4 => {
                let doubled = words(draws.pick(&["+", "mod mod", "mod -", "mod 2 mod", "mod ("]));
                file.splice(place..place + 1, doubled);
            }
            5..=7 => drop(file.splice(place..place, with_names(draws.pick(&DIVIDED)))),
            8 | 9 => drop(file.splice(place..place, with_names(draws.pick(&DIVISIONS)))),
            _ => {
                let mut variables = declared(file).into_iter();
                let mut variable = variables.find(|variable| variable.place == place).unwrap();
                variable.lowest = draws.pick(&[-1, 0, 1, 1, 2]);
                variable.start = variable.start.max(variable.lowest);
                variable.highest = variable.highest.max(variable.start);
                redeclare(draws, file, variable);
            }
        }
    }
}

const GUARDS: [&str; 10] = [
    "true",
    "1 < 2",
    "false || 0 == 0",
    "2 < 1",
    "NAME == NAME",
    "NAME < 1",
    "NAME < 1 && OTHER < 1",
    "NAME + OTHER > 0",
    "NAME mod 2 == 0",
    "NAME mod 1 == OTHER mod 1",
];

/// What is put around a body or a block of an `if`.
const AROUND: [[&str; 2]; 5] = [
    ["if ( false ) {", "}"],
    ["if ( true ) { } else {", "}"],
    ["if ( NAME < 1 ) { } else {", "}"],
    ["if ( NAME == NAME ) { if ( NAME > 0 ) {", "} }"],
    ["if ( 1 < 2 ) {", "} else { NAME := 999 ; }"],
];

fn touches(draws: &mut Draws, file: &mut Words) {
    let names = [variables_of(file), words("x")].concat();
    for _ in 0..draws.pick(&[1, 1, 2, 4]) {
        let [name, other] = [0, 1].map(|_| draws.pick(&names));
        let with_names = |text: &str| words(&text.replace("NAME", &name).replace("OTHER", &other));
        let kind = draws.below(4);
        let places = match kind {
            0 | 1 => places_behind(file, &["waituntil ("]),
            2 => body_places(file),
            _ => places_behind(file, &[":="]),
        };
        if places.is_empty() {
            continue;
        }
        let place = draws.pick(&places);
        let Some(end) = end_of(file, place) else { continue };
        match kind {
            0 | 1 => drop(file.splice(place..end, with_names(draws.pick(&GUARDS)))),
            2 if draws.chance(30) => drop(file.drain(place..end)),
            2 => {
                let [before, behind] = draws.pick(&AROUND).map(with_names);
                file.splice(end..end, behind);
                file.splice(place..place, before);
            }
            // The left side; a damaged file may begin with `:=`.
            _ => file[place.saturating_sub(2)] = other,
        }
    }
}

/// Where the bracket or brace that is open at a place is closed.
fn end_of(file: &Words, place: usize) -> Option<usize> {
    let mut open = 0;
    (place..file.len()).find(|at| {
        open += match file[*at].as_str() {
            "(" | "{" => 1,
            ")" | "}" => -1,
            _ => 0,
        };
        open < 0
    })
}

/// A run of something many times over: what is repeated, what stands behind it, what
/// closes each, and what joins all of it to what follows. NAME is a variable.
type Run = [&'static str; 4];

const CONDITION_RUNS: [Run; 6] = [
    ["!", "", "", ""],
    ["true ||", "", "", ""],
    ["false ||", "", "", ""],
    ["! NAME != NAME &&", "", "", ""],
    ["(", "true", ")", "&&"],
    ["! (", "false || NAME == NAME", ")", "||"],
];

/// Sums that leave sixteen bits.
const SUM_CONDITION_RUNS: [Run; 5] = [
    ["NAME mod 3 +", "0 >= 0", "", "&&"],
    ["- 1 mod 999 +", "NAME > 127", "", "&&"],
    ["999 +", "NAME > 127", "", "&&"],
    ["- 999", "< NAME", "", "&&"],
    ["999 +", "0 < 0", "", "||"],
];

/// The same, and they come back.
const SUM_RUNS: [Run; 3] = [
    ["999 +", "0", "- 999", "+"],
    ["- 999", "- 0", "+ 999", "+"],
    ["- 999 mod 5 +", "0", "- 1", "+"],
];

const BODY_RUNS: [Run; 4] = [
    ["NAME := NAME ;", "", "", ""],
    ["if ( true ) { } else { }", "", "", ""],
    ["if ( true ) {", "NAME := NAME ;", "}", ""],
    ["if ( NAME < NAME ) { } else {", "", "}", ""],
];

fn runs(draws: &mut Draws, file: &mut Words) {
    let (run, places) = match draws.below(10) {
        0..=2 => (draws.pick(&CONDITION_RUNS), condition_places(file)),
        3 => (draws.pick(&SUM_CONDITION_RUNS), condition_places(file)),
        4 => (draws.pick(&SUM_RUNS), places_behind(file, &[":="])),
        5..=7 => (draws.pick(&BODY_RUNS), body_places(file)),
        8 => ([draws.pick(&MARKS), "", "", ""], Vec::new()),
        _ => ([draws.pick(&RESERVED), "", "", ""], Vec::new()),
    };
    let name = variables_of(file).first().cloned().unwrap_or("x".into());
    let [repeated, middle, closing, end] = run.map(|text| words(&text.replace("NAME", &name)));
    let others = file.len() + middle.len() + end.len();
    let room = MOST_TOKENS.saturating_sub(others) / (repeated.len() + closing.len());
    let depth = MOST_DEPTH as usize;
    let nests = [words(")"), words("}")].contains(&closing);
    let times = match draws.below(6) {
        0 => draws.count(1, depth + 2),
        1..=4 if nests => draws.count(depth - 4, depth),
        1 => draws.count(1, 200),
        2..=4 => (room + draws.below(3)).saturating_sub(1),
        _ => room + draws.count(1, 1_000),
    };
    let place = if places.is_empty() { draws.count(0, file.len()) } else { draws.pick(&places) };
    let run = [vec![repeated; times].concat(), middle, vec![closing; times].concat(), end];
    file.splice(place..place, run.concat());
}

/// The places behind one of these runs of tokens.
fn places_behind(file: &Words, runs: &[&str]) -> Vec<usize> {
    let is_behind = |place: &usize| runs.iter().any(|run| file[..*place].ends_with(&words(run)));
    (0..file.len()).filter(is_behind).collect()
}

/// Where conditions begin.
fn condition_places(file: &Words) -> Vec<usize> {
    places_behind(file, &["keep", "try", "waituntil (", "if ("])
}

/// Where bodies and the blocks of an `if` begin.
fn body_places(file: &Words) -> Vec<usize> {
    places_behind(file, &[") {"])
}

fn spelling(draws: &mut Draws, file: &mut Words) {
    let is_wanted: fn(&str) -> bool = match draws.below(4) {
        0 | 1 => is_name,
        2 => |token| token.as_bytes()[0].is_ascii_digit(),
        _ => |_| true,
    };
    let places: Vec<usize> = (0..file.len()).filter(|place| is_wanted(&file[*place])).collect();
    if places.is_empty() {
        return;
    }
    let place = draws.pick(&places);
    let token = file[place].clone();
    let first = token.as_bytes()[0];
    let longest = if first.is_ascii_digit() { LONGEST_NUMBER } else { LONGEST_WORD };
    let missing = about(draws, longest).saturating_sub(token.len());
    let spelled = if first.is_ascii_digit() {
        match draws.chance(70) {
            true => "0".repeat(missing) + &token,
            false => draws.pick(&["0", "000", "127", "128", "129", "255", "256", "999"]).into(),
        }
    } else if first.is_ascii_alphabetic() {
        match draws.below(8) {
            0 => token.to_uppercase(),
            1 => token[..token.len() - 1].into(),
            2 => token.clone() + draws.pick(&["_", "0", "x", "E"]),
            3 => draws.pick(&RESERVED).to_string() + draws.pick(&["", "_", "1", "s"]),
            _ => token.clone() + &draws.pick(&["_", "0", "Z"]).repeat(missing),
        }
    } else {
        token.clone() + draws.pick(&["=", ".", "&", "|", "-", "!"])
    };
    // Everywhere, or here alone.
    let everywhere = draws.chance(70) && !RESERVED.contains(&token.as_str());
    for (at, word) in file.iter_mut().enumerate() {
        if at == place || everywhere && *word == token {
            *word = spelled.clone();
        }
    }
}

/// A variable of the file: where its declaration stands, and its numbers.
struct Declared {
    place: usize,
    length: usize,
    start: i64,
    lowest: i64,
    highest: i64,
}

fn declared(file: &Words) -> Vec<Declared> {
    let places = (0..file.len()).filter(|place| file[*place] == "var");
    let declared = places.map(|place| {
        // In a damaged file another `var` may come before the `;`.
        let behind = &file[place + 1..];
        let end = behind.iter().position(|token| [";", "var"].contains(&&token[..]));
        let length = 1 + end.unwrap_or(behind.len());
        let tokens = &file[place..place + length];
        let parts = tokens.split(|token| ["=", "in", ".."].contains(&&token[..]));
        let numbers: Vec<Words> = parts.skip(1).map(|part| part.to_vec()).collect();
        let number = |index: usize| {
            let text = numbers.get(index).map(|number| number.concat()).unwrap_or_default();
            text.parse::<i16>().map_or(0, i64::from)
        };
        Declared { place, length, start: number(0), lowest: number(1), highest: number(2) }
    });
    declared.collect()
}

fn other_ranges(draws: &mut Draws, file: &mut Words) {
    let mut variables = declared(file);
    if draws.chance(50) {
        widen(draws, &mut variables);
    } else if !variables.is_empty() {
        let number = draws.below(variables.len());
        let variable = &mut variables[number];
        let [low, high] = [LOWEST, HIGHEST];
        match draws.below(4) {
            0 => variable.lowest = draws.pick(&[low - 1, low, -1, 0, 1, high, -999]),
            1 => variable.highest = draws.pick(&[high + 1, high, 1, 0, -1, low, 999]),
            2 => variable.start = draws.pick(&[variable.lowest - 1, variable.highest + 1]),
            _ => (variable.lowest, variable.highest) = (low, high),
        }
    }
    // From the last one on: what stands before it keeps its place.
    for variable in variables.into_iter().rev() {
        redeclare(draws, file, variable);
    }
}

fn redeclare(draws: &mut Draws, file: &mut Words, variable: Declared) {
    let Declared { place, length, start, lowest, highest } = variable;
    let name = file.get(place + 1).cloned().unwrap_or_default();
    let [start, lowest, highest] =
        [start, lowest, highest].map(|number| integer(draws, number).join(" "));
    let range = words(&format!("var {name} = {start} in {lowest} .. {highest}"));
    file.splice(place..place + length, range);
}

/// Wider ranges around the old ones, mostly with 4,096 states or just more.
fn widen(draws: &mut Draws, variables: &mut [Declared]) {
    let size_of = |variable: &Declared| (variable.highest - variable.lowest + 1).clamp(1, 256);
    let mut sizes: Vec<usize> =
        variables.iter().map(|variable| (size_of(variable) as usize).next_power_of_two()).collect();
    let states =
        |sizes: &[usize]| sizes.iter().fold(1, |all: usize, size| all.saturating_mul(*size));
    while states(&sizes) < MOST_STATES && sizes.iter().any(|size| *size < 256) {
        let number = draws.below(sizes.len());
        sizes[number] = (2 * sizes[number]).min(256);
    }
    for (variable, size) in variables.iter_mut().zip(sizes) {
        let size = size as i64 + i64::from(draws.chance(10));
        variable.lowest = LOWEST.max(variable.highest + 1 - size).min(variable.lowest);
        variable.highest = variable.highest.max(variable.lowest + size - 1);
    }
}

fn declarations(draws: &mut Draws, file: &mut Words) {
    let count_of = |word: &str| file.iter().filter(|token| *token == word).count();
    let (kind, most, before) = draws.pick(&[
        ("var", MOST_VARIABLES, "keep"),
        ("try", MOST_TRIES, "method"),
        ("method", MOST_METHODS, "method"),
        ("waituntil", MOST_REGIONS, "waituntil"),
    ]);
    let missing = about(draws, most).saturating_sub(count_of(kind));
    for number in 0..missing {
        let mut places: Vec<usize> = (0..file.len()).filter(|at| file[*at] == before).collect();
        if kind == "try" {
            places.truncate(1);
        }
        let place = if places.is_empty() { file.len() } else { draws.pick(&places) };
        let guard = draws.pick(&["true", "false", "0 < 1", "00 < 001", "! true"]);
        let region = format!("waituntil ( {guard} ) {{ }}");
        let added = match kind {
            "var" => format!("var v{number} = 0 in 0 .. {} ;", draws.below(3)),
            "try" => format!("try {guard} ;"),
            "method" => format!("method q{number} {{ {region} }}"),
            _ => region,
        };
        file.splice(place..place, words(&added));
    }
}
