//! Files that get one of the refusals 1 to 9 and 15.

use super::damage::{any_bytes, damage_tokens};
use super::draws::Draws;
use super::monitors::{any_accepted, any_condition, any_value, Method, Region, Sketch, Variable};
use super::remainders::{add_lacking, lacking_statement};
use super::tries::any_try;
use super::words::{any_token, blanks, integer, laid_out_to_fit, words, Words};
use super::Size;
use crate::check::check;
use crate::limits::{
    MOST_BYTES, MOST_DEPTH, MOST_METHODS, MOST_REGIONS, MOST_TOKENS, MOST_TRIES, MOST_VARIABLES,
};
use crate::ranges::{HIGHEST, LOWEST};

/// The refusals in the order of the checks.
const ORDER: [u8; 10] = [1, 2, 3, 4, 5, 6, 7, 15, 8, 9];

/// A file that gets this refusal: an accepted one with an offence, and now and
/// then an offence of a later check beside it. Drawn anew until the refusal and
/// the size are right.
pub fn refused(draws: &mut Draws, size: Size, number: u8) -> Vec<u8> {
    loop {
        let file = offending(draws, size, number);
        let fits = file.len() <= size.bytes + 50 || number == 1;
        if fits && check(&file).is_err_and(|answer| answer.number == number) {
            return file;
        }
    }
}

fn offending(draws: &mut Draws, size: Size, number: u8) -> Vec<u8> {
    let mut numbers = vec![number];
    let later = &ORDER[ORDER.iter().position(|other| *other == number).unwrap() + 1..];
    // The last check's first: sketch, then tokens, then bytes.
    if !later.is_empty() && draws.chance(25) {
        numbers.insert(0, draws.pick(later));
    }
    let mut sketch = any_accepted(draws, size).sketch;
    for number in &numbers {
        match number {
            5 => too_many(draws, &mut sketch, size),
            6 => bad_name(draws, &mut sketch),
            7 => bad_range(draws, &mut sketch),
            15 => add_lacking(draws, &mut sketch),
            8 => start_not_kept(draws, &mut sketch),
            9 => leaving_body(draws, &mut sketch),
            _ => (),
        }
    }
    let mut tokens = sketch.words(draws);
    for number in &numbers {
        match number {
            3 => too_deep_or_many(draws, &mut tokens, size),
            4 => ungrammatical(draws, &mut tokens),
            _ => (),
        }
    }
    let mut file = laid_out_to_fit(draws, &tokens, size);
    for number in &numbers {
        match number {
            1 => too_long(draws, &mut file),
            2 => no_token(draws, &mut file),
            _ => (),
        }
    }
    file
}

/// For 1: more bytes, be they blanks or not.
fn too_long(draws: &mut Draws, file: &mut Vec<u8>) {
    let over = if draws.chance(50) { 1 } else { draws.count(2, 500) };
    let missing = (MOST_BYTES + over).saturating_sub(file.len());
    if draws.chance(70) {
        file.extend(blanks(draws, missing));
    } else {
        while file.len() < MOST_BYTES + over {
            file.extend(any_bytes(draws, 4 * missing));
        }
        file.truncate(MOST_BYTES + over);
    }
}

/// For 2: bytes that begin no token, or begin one that is too long.
fn no_token(draws: &mut Draws, file: &mut Vec<u8>) {
    let place = draws.count(0, file.len());
    let bad: Vec<u8> = match draws.below(5) {
        0 => vec![draws.pick(b".:&|_,@#\"'/*%\x00\x0B\x0C\x7F\x80\xFF")],
        1 => draws.pick(&["...", ":", "&", "|", "_", "==.", "a&b", "12_"]).into(),
        2 => vec![draws.pick(b"aZ_9"); draws.count(17, 19)],
        3 => vec![draws.pick(b"0159"); draws.count(4, 6)],
        _ => vec![draws.byte()],
    };
    file.splice(place..place, bad);
}

/// For 3: too many tokens, or brackets that open too deep.
fn too_deep_or_many(draws: &mut Draws, tokens: &mut Words, size: Size) {
    let place = draws.count(0, tokens.len());
    if !size.is_small && draws.chance(50) {
        let missing = (MOST_TOKENS + draws.count(1, 20)).saturating_sub(tokens.len());
        let filler = match draws.below(3) {
            0 => (0..missing).map(|_| any_token(draws)).collect(),
            1 => vec!["!".to_string(); missing],
            _ => words(&"x := 1 ;".repeat(missing / 4 + 1)),
        };
        tokens.splice(place..place, filler);
    } else {
        let depth = draws.count(2, MOST_DEPTH as usize + 2);
        let opened: Words = (0..depth).map(|_| draws.pick(&["(", "(", "{"]).into()).collect();
        let closed = opened.iter().map(|mark| if mark == "(" { ")" } else { "}" }.to_string());
        if draws.chance(70) {
            let closed: Words = closed.rev().collect();
            let end = draws.count(place, tokens.len());
            tokens.splice(end..end, closed);
        }
        tokens.splice(place..place, opened);
        if draws.chance(20) {
            tokens.insert(0, "}".into());
        }
    }
}

/// For 4: damaged tokens, or a turn of phrase that the grammar does not have.
fn ungrammatical(draws: &mut Draws, tokens: &mut Words) {
    if draws.chance(70) {
        for _ in 0..draws.count(1, 2) {
            damage_tokens(draws, tokens);
        }
        return;
    }
    let phrases = [
        ("keep", "keep ( x ) =="),
        ("keep", "keep - x =="),
        ("keep", "keep 1 == 1 == 1 &&"),
        ("keep", "keep true + 1 ;"),
        ("keep", "keep x || x == 1"),
        ("keep", "keep ! ( true || )"),
        (":=", ":= - -"),
        (":=", ":= ( x )"),
        (":=", ":= true"),
        ("}", "} else if ( true ) { }"),
        ("}", "} else { } else { }"),
        ("}", "} ;"),
        ("{", "{ }"),
        ("{", "{ if true { }"),
        ("{", "{ { }"),
        (";", "; ;"),
        ("in", "in 0 - 1"),
        ("..", "..  + 1"),
        ("..", ".. .."),
        ("method", "keep true ; method"),
        ("method", "var z = 0 in 0 .. 0 ; method"),
        ("waituntil", "method waituntil"),
        ("monitor", "monitor if"),
        ("monitor", "monitor try"),
        ("var", "var try"),
        ("var", "try true ; var"),
        ("keep", "try true ; keep"),
        ("try", "try ;"),
        ("try", "try try"),
        ("try", "try true"),
        ("try", "try true ; keep"),
        ("method", "try method"),
        ("method", "try true ; method"),
        ("method", "method try"),
        ("waituntil", "try true ; waituntil"),
        ("{", "{ try true ;"),
        ("}", "} try true ;"),
        ("keep", "keep mod"),
        ("keep", "keep x mod 2 mod 2 == 0 &&"),
        ("keep", "keep ( x ) mod 2 == 0 &&"),
        (":=", ":= mod"),
        (":=", ":= 7 mod 3 mod"),
        (":=", ":= 7 mod ("),
        (";", "mod ;"),
        (";", "mod 3 mod 2 ;"),
        ("mod", "mod mod"),
        ("mod", "mod +"),
        ("mod", "mod - -"),
        ("mod", "mod 2 mod"),
        ("in", "mod 2 in"),
        ("var", "var mod"),
        ("method", "method mod"),
        ("monitor", "monitor mod"),
    ];
    let (token, phrase) = draws.pick(&phrases);
    let places: Vec<usize> = (0..tokens.len()).filter(|place| tokens[*place] == token).collect();
    if let Some(place) = (!places.is_empty()).then(|| draws.pick(&places)) {
        tokens.splice(place..place + 1, words(phrase));
    }
}

/// For 5: too many variables, tries, methods or regions.
fn too_many(draws: &mut Draws, sketch: &mut Sketch, size: Size) {
    let over = if size.is_small { 1 } else { draws.count(1, 2) };
    let empty = Region { guard: words("true"), body: Vec::new() };
    if size.is_small {
        // Little room: one short method beside the many.
        sketch.methods.truncate(1);
        sketch.methods[0].regions = vec![empty.clone()];
    }
    match draws.below(4) {
        0 => {
            for number in sketch.variables.len()..MOST_VARIABLES + over {
                let name = format!("v{number}");
                let extra = Variable { name, start: 0, lowest: 0, highest: 0 };
                let place = draws.count(0, sketch.variables.len());
                sketch.variables.insert(place, extra);
            }
        }
        1 => {
            for number in sketch.methods.len()..MOST_METHODS + over {
                let extra = Method { name: format!("q{number}"), regions: vec![empty.clone()] };
                let place = draws.count(0, sketch.methods.len());
                sketch.methods.insert(place, extra);
            }
        }
        2 => {
            while sketch.tries.len() < MOST_TRIES + over {
                let is_short = size.is_small || draws.chance(30);
                let more = if is_short { words("true") } else { any_try(draws, &sketch.variables) };
                let place = draws.count(0, sketch.tries.len());
                sketch.tries.insert(place, more);
            }
        }
        _ => {
            for _ in 0..MOST_REGIONS + over {
                let number = draws.below(sketch.methods.len());
                sketch.methods[number].regions.push(empty.clone());
            }
        }
    }
}

/// For 6: a name declared twice, or used and not declared.
fn bad_name(draws: &mut Draws, sketch: &mut Sketch) {
    let method = draws.pick(&sketch.methods).name;
    let unknown = draws.pick(&["u".to_string(), "m".to_string(), "True".to_string(), method]);
    match draws.below(6) {
        0 => {
            let again = draws.pick(&sketch.variables);
            let place = draws.count(0, sketch.variables.len());
            sketch.variables.insert(place, again);
        }
        1 => {
            let again = draws.pick(&sketch.methods);
            let place = draws.count(0, sketch.methods.len());
            sketch.methods.insert(place, again);
        }
        2 => sketch.keep.extend(words(&format!("|| {unknown} == 0"))),
        3 => {
            let place = draws.count(0, sketch.tries.len());
            sketch.tries.insert(place, words(&format!("{unknown} == {unknown}")));
        }
        4 => sketch.any_region(draws).guard.extend(words(&format!("&& 0 < {unknown}"))),
        _ => {
            let known = draws.pick(&sketch.variables).name;
            let (left, right) = match draws.chance(50) {
                true => (&unknown, &known),
                false => (&known, &unknown),
            };
            let assignment = words(&format!("{left} := {right} ;"));
            sketch.any_region(draws).body.extend(assignment);
        }
    }
}

/// For 7: a range or start that is not allowed, or too many states.
fn bad_range(draws: &mut Draws, sketch: &mut Sketch) {
    let number = draws.below(sketch.variables.len());
    let variable = &mut sketch.variables[number];
    match draws.below(6) {
        0 => (variable.lowest, variable.highest) = (variable.highest + 1, variable.lowest),
        1 => variable.lowest = draws.pick(&[LOWEST - 1, LOWEST - 1, LOWEST - 2, -999]),
        2 => variable.highest = draws.pick(&[HIGHEST + 1, HIGHEST + 1, HIGHEST + 2, 999]),
        3 => variable.start = variable.lowest - draws.between(1, 3),
        4 => variable.start = variable.highest + draws.between(1, 3),
        _ => {
            for variable in &mut sketch.variables {
                let highest = variable.lowest + draws.pick(&[15, 16, 63, 64, 127]);
                variable.highest = highest.min(HIGHEST);
            }
            for name in ["w1", "w2"] {
                let highest = draws.pick(&[15, 16, 63, 64, 127]);
                let extra = Variable { name: name.into(), start: 0, lowest: 0, highest };
                sketch.variables.push(extra);
            }
        }
    }
}

/// For 8: a kept condition that is false at the start values.
fn start_not_kept(draws: &mut Draws, sketch: &mut Sketch) {
    let variable = draws.pick(&sketch.variables);
    let start = integer(draws, variable.start);
    sketch.keep = match draws.below(4) {
        0 => words("false"),
        1 => [words("! ("), sketch.keep.clone(), words(")")].concat(),
        2 => [vec![variable.name, "!=".into()], start].concat(),
        _ => any_condition(draws, &sketch.variables, 2),
    };
}

/// For 9: a body that leaves a range, if only for a moment, meets a missing value, or ends
/// unkept.
fn leaving_body(draws: &mut Draws, sketch: &mut Sketch) {
    let ranges = sketch.variables.iter().map(|variable| variable.highest - variable.lowest + 1);
    if ranges.product::<i64>() > 256 && draws.chance(60) {
        return leaving_from_one_state(draws, sketch);
    }
    if draws.chance(30) {
        let statement = lacking_statement(draws, &sketch.variables);
        sketch.any_region(draws).body.splice(0..0, statement);
        return;
    }
    let variable = draws.pick(&sketch.variables);
    let name = &variable.name;
    let highest = integer(draws, variable.highest).join(" ");
    let lowest = integer(draws, variable.lowest).join(" ");
    let start = integer(draws, variable.start).join(" ");
    let offence = match draws.below(6) {
        0 => format!("{name} := {name} + 1 ;"),
        1 => format!("{name} := {name} - 1 ;"),
        2 => format!("{name} := {name} + 1 ; {name} := {name} - 1 ;"),
        3 => format!("if ( {name} == {highest} ) {{ {name} := {highest} + 1 ; }}"),
        4 => format!("{name} := {lowest} - 1 ; {name} := {lowest} ;"),
        _ => {
            sketch.keep = words(&format!("{name} == {start} || {name} != {highest}"));
            format!("{name} := {highest} ;")
        }
    };
    let body = &mut sketch.any_region(draws).body;
    if draws.chance(50) {
        body.splice(0..0, words(&offence));
    } else {
        body.extend(words(&offence));
    }
}

/// The same from one state alone, so that of many states a high one is told too.
fn leaving_from_one_state(draws: &mut Draws, sketch: &mut Sketch) {
    let mut state = Vec::new();
    for variable in &sketch.variables {
        let value = any_value(draws, variable);
        state.push(format!("{} == {}", variable.name, integer(draws, value).join(" ")));
    }
    let Variable { name, highest, .. } = draws.pick(&sketch.variables);
    let highest = integer(draws, highest).join(" ");
    let offence = format!("if ( {} ) {{ {name} := {highest} + 1 ; }}", state.join(" && "));
    let region = sketch.any_region(draws);
    region.body.splice(0..0, words(&offence));
    if draws.chance(50) {
        region.guard = words("true");
    }
}
