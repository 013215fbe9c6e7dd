//! Accepted monitors that meet a limit exactly.

use super::draws::Draws;
use super::monitors::{accepted, Accepted, Counts, Region, Sketch};
use super::pairs::wide;
use super::tries::{any_try, counting};
use super::words::{blanks, integer, laid_out, words, Layout, Words};
use super::Size;
use crate::check::check;
use crate::limits::{
    MOST_BYTES, MOST_DEPTH, MOST_METHODS, MOST_REGIONS, MOST_TOKENS, MOST_TRIES, MOST_VARIABLES,
};
use crate::machines::Machines;
use crate::ranges::{HIGHEST, LOWEST, MOST_STATES};
use crate::tokens::{LONGEST_NUMBER, LONGEST_WORD};

/// One of the limits below. The last seven do not fit a small case.
pub fn any_limit(draws: &mut Draws, size: Size) -> usize {
    draws.below(if size.is_small { 6 } else { 13 })
}

/// A monitor that meets this limit.
pub fn exact(draws: &mut Draws, size: Size, limit: usize) -> Accepted {
    let counts = Counts::any(draws, size);
    match limit {
        0 => {
            let counts = Counts { variables: MOST_VARIABLES, ..counts };
            accepted(draws, size, &counts, |_, _| ())
        }
        1 => {
            let counts = Counts { methods: MOST_METHODS, regions: MOST_METHODS, ..counts };
            accepted(draws, roomy(size), &counts, |_, sketch| empty_if_small(size, sketch))
        }
        2 => {
            let methods = if size.is_small { 1 } else { draws.count(2, MOST_METHODS) };
            let counts = Counts { methods, regions: MOST_REGIONS, variables: 1 };
            accepted(draws, roomy(size), &counts, |_, sketch| empty_if_small(size, sketch))
        }
        3 => accepted(draws, size, &counts, deepest),
        4 => accepted(draws, size, &counts, longest_words),
        5 => all_tries(draws, size),
        6 => all_passes(draws, size),
        7 => full_range(draws, size),
        8 => all_states(draws, size),
        9 => all_tokens(draws, size),
        10 => all_bytes(draws, size),
        11 => longest_table(draws, size),
        _ => widest(draws, size),
    }
}

/// Room for eight methods or sixteen regions, even in a small case.
fn roomy(size: Size) -> Size {
    Size { bytes: size.bytes + 100, ..size }
}

/// In a small case, most of many regions have the shortest guard and no body.
fn empty_if_small(size: Size, sketch: &mut Sketch) {
    if size.is_small {
        let regions = sketch.methods.iter_mut().flat_map(|method| &mut method.regions);
        for region in regions.skip(2) {
            *region = Region { guard: words("true"), body: Vec::new() };
        }
    }
}

/// Brackets or ifs that reach the greatest depth, somewhere in the file.
fn deepest(draws: &mut Draws, sketch: &mut Sketch) {
    let bracketed = |inner: &Words, depth: i64| {
        let depth = depth as usize;
        [vec!["(".to_string(); depth], inner.clone(), vec![")".to_string(); depth]].concat()
    };
    match draws.below(3) {
        // Around the kept condition stands one `{`.
        0 => sketch.keep = bracketed(&sketch.keep, MOST_DEPTH - 1),
        // Around a guard stand two and the `(` of `waituntil`.
        1 => {
            let region = sketch.any_region(draws);
            region.guard = bracketed(&words("true"), MOST_DEPTH - 3);
        }
        // Around a body stand three.
        _ => {
            let name = draws.pick(&sketch.variables).name;
            let region = sketch.any_region(draws);
            let opened = format!("if ( {name} == {name} ) {{ ").repeat(MOST_DEPTH as usize - 3);
            let closed = "} ".repeat(MOST_DEPTH as usize - 3);
            region.body = words(&format!("{opened} {name} := {name} ; {closed}"));
        }
    }
}

/// One variable's name as long as a word may be, and a number too.
fn longest_words(draws: &mut Draws, sketch: &mut Sketch) {
    let number = draws.below(sketch.variables.len());
    let short = sketch.variables[number].name.clone();
    let long = short.clone() + &"_".repeat(LONGEST_WORD - short.len());
    let rename = |tokens: &mut Words| {
        for token in tokens.iter_mut().filter(|token| **token == short) {
            *token = long.clone();
        }
    };
    rename(&mut sketch.keep);
    sketch.tries.iter_mut().for_each(rename);
    for method in &mut sketch.methods {
        for region in &mut method.regions {
            rename(&mut region.guard);
            rename(&mut region.body);
        }
    }
    sketch.variables[number].name = long.clone();
    let zero = "0".repeat(LONGEST_NUMBER);
    sketch.any_region(draws).guard = words(&format!("{long} != {zero}"));
}

/// As many tries as there may be; in a small case most of them short, and few states.
fn all_tries(draws: &mut Draws, size: Size) -> Accepted {
    let few = if size.is_small { 4 } else { size.states };
    let counts = Counts::any(draws, size);
    accepted(draws, Size { states: few, ..roomy(size) }, &counts, |draws, sketch| {
        empty_if_small(size, sketch);
        while sketch.tries.len() < MOST_TRIES {
            let is_short = size.is_small && sketch.tries.len() >= 3;
            let more = if is_short { words("true") } else { any_try(draws, &sketch.variables) };
            let place = draws.count(0, sketch.tries.len());
            sketch.tries.insert(place, more);
        }
    })
}

/// As many tries as there may be, and they fall one a pass.
fn all_passes(draws: &mut Draws, size: Size) -> Accepted {
    let counts = Counts { variables: 2, methods: 3, regions: 5 };
    accepted(draws, Size { states: 16, ..size }, &counts, |draws, sketch| {
        let number = draws.below(2);
        let most = MOST_TRIES as i64;
        let variable = &mut sketch.variables[number];
        variable.start = variable.lowest.min(HIGHEST - most);
        (variable.lowest, variable.highest) = (variable.start, variable.start + most);
        let variable = variable.clone();
        let other = sketch.variables[1 - number].clone();
        for number in 0..5 {
            *sketch.region(number) = counting(draws, &other);
        }
        *sketch.any_region(draws) = counting(draws, &variable);
        sketch.keep = words("true");
        let steps = (1..=most).map(|step| variable.start + step);
        let fact =
            |value: i64| [vec![variable.name.clone(), "!=".into()], integer(draws, value)].concat();
        sketch.tries = steps.map(fact).collect();
        if draws.chance(50) {
            sketch.tries.reverse();
        }
    })
}

fn full_range(draws: &mut Draws, size: Size) -> Accepted {
    let counts = Counts { variables: 2, methods: 3, regions: 4 };
    let size = Size { states: 16, ..size };
    accepted(draws, size, &counts, |draws, sketch| {
        let number = draws.below(2);
        sketch.variables[number].lowest = LOWEST;
        sketch.variables[number].highest = HIGHEST;
    })
}

/// Exactly as many states as there may be.
fn all_states(draws: &mut Draws, size: Size) -> Accepted {
    let ranges = draws.pick(&[vec![64, 64], vec![16, 16, 16], vec![2, 32, 64], vec![4; 6]]);
    assert_eq!(ranges.iter().product::<i64>(), MOST_STATES as i64);
    let counts = Counts { variables: ranges.len(), ..Counts::any(draws, size) };
    accepted(draws, Size { states: 1, ..size }, &counts, |_, sketch| {
        for (variable, range) in sketch.variables.iter_mut().zip(&ranges) {
            variable.lowest = variable.lowest.min(HIGHEST - range + 1);
            variable.start = variable.lowest;
            variable.highest = variable.lowest + range - 1;
        }
    })
}

/// Exactly as many tokens as there may be: the kept condition is drawn out.
fn all_tokens(draws: &mut Draws, size: Size) -> Accepted {
    let counts = Counts::any(draws, size);
    let mut drawn = accepted(draws, size, &counts, |_, sketch| sketch.keep = words("true"));
    let missing = |draws: &mut Draws, sketch: &Sketch| MOST_TOKENS - sketch.words(draws).len();
    if missing(draws, &drawn.sketch) % 2 == 1 {
        drawn.sketch.keep.extend(words("&& 0 == - 0"));
    }
    while missing(draws, &drawn.sketch) > 0 {
        let two_more = if draws.chance(50) { ["!", "!"] } else { ["true", "&&"] };
        drawn.sketch.keep.splice(0..0, two_more.map(String::from));
    }
    let tokens = drawn.sketch.words(draws);
    drawn.file = laid_out(draws, &tokens, Layout::Single);
    rebuilt(drawn)
}

/// Exactly as many bytes as there may be: blanks between some two tokens.
fn all_bytes(draws: &mut Draws, size: Size) -> Accepted {
    let counts = Counts::any(draws, size);
    let mut drawn = accepted(draws, size, &counts, |_, _| ());
    let place = drawn.file.iter().position(|byte| *byte == draws.pick(b"{;}")).unwrap_or(0);
    let filler = blanks(draws, MOST_BYTES - drawn.file.len());
    drawn.file.splice(place..place, filler);
    rebuilt(drawn)
}

/// Sixteen guards, each made true by all fifteen other regions: the table has as
/// many lines as one can have.
fn longest_table(draws: &mut Draws, size: Size) -> Accepted {
    let methods = draws.count(1, MOST_METHODS);
    let counts = Counts { variables: 2, methods, regions: MOST_REGIONS };
    accepted(draws, size, &counts, |_, sketch| {
        let highest = MOST_REGIONS as i64 - 1;
        for variable in &mut sketch.variables {
            (variable.start, variable.lowest, variable.highest) = (0, 0, highest);
        }
        sketch.keep = words("true");
        sketch.tries.clear();
        let [x, y] = [0, 1].map(|number| sketch.variables[number].name.clone());
        for number in 0..MOST_REGIONS {
            let guard = words(&format!("{x} == {number}"));
            let body = words(&format!("{x} := {y} ; {y} := {number} ;"));
            *sketch.region(number) = Region { guard, body };
        }
    })
}

/// As many variables and regions as there may be, most regions touching one variable.
fn widest(draws: &mut Draws, size: Size) -> Accepted {
    let methods = draws.count(MOST_METHODS / 2, MOST_METHODS);
    wide(draws, size, &Counts { variables: MOST_VARIABLES, methods, regions: MOST_REGIONS })
}

/// The machines anew, after the file has been changed into another good one.
fn rebuilt(drawn: Accepted) -> Accepted {
    let monitor = check(&drawn.file).expect("an accepted file");
    Accepted { machines: Machines::of(monitor), ..drawn }
}
