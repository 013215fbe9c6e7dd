//! Regions for drawn monitors, about what bodies assign and guards name: wide files in which
//! most regions touch one variable; guards that name no variable, several, or another than the
//! body assigns; bodies that assign nothing or only read; assignments that stand under `else`,
//! in nested ifs or where they are never reached.

use std::slice::from_ref;

use super::draws::Draws;
use super::monitors::{
    accepted, any_comparison, any_value, comparison_with_constant, matched_region, Accepted,
    Counts, Region, Sketch, Variable,
};
use super::remainders::add_remainders;
use super::tries::add_tries;
use super::words::{integer, respelled_words, words, Words};
use super::Size;
use crate::limits::MOST_VARIABLES;

/// How many variables, methods and regions a wide file has: more variables than others of its
/// size.
pub fn wide_counts(draws: &mut Draws, size: Size) -> Counts {
    let most = if size.is_small { 4 } else { MOST_VARIABLES };
    let regions = draws.count(size.regions.div_ceil(2), size.regions);
    Counts {
        variables: draws.count(most - most / 3, most),
        methods: draws.count(regions.div_ceil(3), regions).min(size.methods),
        regions,
    }
}

/// A monitor of these counts with narrow ranges, most of whose regions touch one variable.
pub fn wide(draws: &mut Draws, size: Size, counts: &Counts) -> Accepted {
    accepted(draws, size, counts, |draws, sketch| widen(draws, size, sketch))
}

fn widen(draws: &mut Draws, size: Size, sketch: &mut Sketch) {
    let few = if size.is_small { 16 } else { 200 };
    let mut states_left = if draws.chance(90) { size.states.min(few) } else { size.states };
    for variable in &mut sketch.variables {
        let range = draws.pick(&[2, 2, 2, 3, 4]).min(states_left);
        states_left /= range;
        variable.lowest = draws.pick(&[0, 0, 0, 1, -1, 5]);
        variable.highest = variable.lowest + range as i64 - 1;
        variable.start = draws.pick(&[variable.lowest, variable.lowest, variable.highest]);
    }
    if draws.chance(70) {
        sketch.keep = words("true");
    }
    let variables = &sketch.variables;
    let others = draws.pick(&[0, 20, 50]);
    let mut guards: Vec<Words> = Vec::new();
    for region in sketch.methods.iter_mut().flat_map(|method| &mut method.regions) {
        *region = match draws.chance(others) {
            true => any_touching(draws, variables),
            false => matched_region(draws, variables),
        };
        if !guards.is_empty() && draws.chance(20) {
            let earlier = draws.pick(&guards);
            region.guard = respelled_words(draws, &earlier);
        }
        guards.push(region.guard.clone());
    }
    sketch.tries.clear();
    if draws.chance(40) {
        add_tries(draws, size, sketch);
    }
    if draws.chance(25) {
        add_remainders(draws, sketch);
    }
}

/// Regions of which none touches a guard: the guards name some of the variables, and the bodies
/// assign others.
pub fn set_apart(draws: &mut Draws, sketch: &mut Sketch) {
    let count = draws.count(0, sketch.variables.len());
    let (named, assigned) = sketch.variables.split_at(count);
    for region in sketch.methods.iter_mut().flat_map(|method| &mut method.regions) {
        let read = draws.pick(&sketch.variables);
        region.guard = match named.is_empty() {
            true => any_nameless(draws),
            false => {
                let one = draws.pick(named);
                any_naming(draws, named, &one)
            }
        };
        region.body = match assigned.is_empty() {
            true => any_reading(draws, &read),
            false => {
                let one = draws.pick(assigned);
                any_assigning(draws, &read, &one)
            }
        };
    }
    sketch.keep = words("true");
}

/// A region whose guard and body have a variable in common or not.
pub fn any_touching(draws: &mut Draws, variables: &[Variable]) -> Region {
    let named = draws.pick(variables);
    let guard = any_naming(draws, variables, &named);
    // Mostly another variable is assigned, if there is one.
    let others: Vec<Variable> =
        variables.iter().filter(|variable| variable.name != named.name).cloned().collect();
    let assigned = match others.is_empty() || draws.chance(40) {
        true => named.clone(),
        false => draws.pick(&others),
    };
    Region { guard, body: any_assigning(draws, &named, &assigned) }
}

/// A guard that names this variable, perhaps among others, or none at all.
fn any_naming(draws: &mut Draws, variables: &[Variable], named: &Variable) -> Words {
    let one = comparison_with_constant(draws, from_ref(named));
    let other = draws.pick(variables);
    match draws.below(10) {
        0..=2 => any_nameless(draws),
        3 => vec![named.name.clone(), any_comparison(draws), other.name],
        4 if other.lowest >= 1 => {
            let remainder = words(&format!("{} mod {}", named.name, other.name));
            [remainder, vec![any_comparison(draws)], words("0")].concat()
        }
        4 => {
            let sum = words(&format!("{} + {}", named.name, other.name));
            let value = draws.between(-1, 3);
            [sum, vec![any_comparison(draws)], integer(draws, value)].concat()
        }
        5 | 6 => {
            let joint = words(draws.pick(&["&&", "||"]));
            let parts = [one, joint, comparison_with_constant(draws, &[other])];
            let third = comparison_with_constant(draws, variables);
            let joint = words(draws.pick(&["&&", "||"]));
            match draws.chance(50) {
                true => parts.concat(),
                false => [parts.concat(), joint, third].concat(),
            }
        }
        _ => one,
    }
}

/// A guard that names no variable, mostly one that holds.
fn any_nameless(draws: &mut Draws) -> Words {
    let guards = [
        "true",
        "true",
        "1 < 2",
        "1 < 2",
        "0 == 0",
        "! false",
        "( true )",
        "1 <= 0 || true",
        "false",
        "2 < 1",
    ];
    words(draws.pick(&guards))
}

/// A body that assigns nothing, and perhaps reads this variable.
fn any_reading(draws: &mut Draws, read: &Variable) -> Words {
    let [one, other] = [0, 1].map(|_| comparison_with_constant(draws, from_ref(read)).join(" "));
    let body = match draws.below(3) {
        0 => String::new(),
        1 => format!("if ( {one} ) {{ }}"),
        _ => format!("if ( {one} ) {{ }} else {{ if ( {other} ) {{ }} }}"),
    };
    words(&body)
}

/// A body that reads what the guard names and assigns this variable, wherever the assignment
/// stands; or one that assigns nothing.
fn any_assigning(draws: &mut Draws, named: &Variable, assigned: &Variable) -> Words {
    let name = &assigned.name;
    let value = any_value(draws, assigned);
    let value = integer(draws, value).join(" ");
    let assignment = format!("{name} := {value} ;");
    let over = draws.pick(&[999, assigned.highest + 1, assigned.lowest - 1]);
    let over = integer(draws, over).join(" ");
    let [one, other] = [0, 1].map(|_| comparison_with_constant(draws, from_ref(named)).join(" "));
    let never = draws.pick(&["false", "1 > 2", "! true"]);
    let fits = assigned.lowest <= named.lowest && named.highest <= assigned.highest;
    let body = match draws.below(14) {
        0..=2 => return any_reading(draws, named),
        // What the guard names is read.
        3 => format!("if ( {one} ) {{ {assignment} }}"),
        4 if fits => format!("{name} := {} ;", named.name),
        // Under else alone.
        5 | 6 => format!("if ( {one} ) {{ }} else {{ {assignment} }}"),
        // In a nested if alone.
        7 => format!("if ( {one} ) {{ if ( {other} ) {{ {assignment} }} }}"),
        8 => format!("if ( {one} ) {{ }} else {{ if ( {other} ) {{ }} else {{ {assignment} }} }}"),
        // Never reached, so that it may leave its range.
        9 => format!("if ( {never} ) {{ {name} := {over} ; }}"),
        10 => format!("if ( {never} ) {{ }} else {{ if ( {never} ) {{ {name} := {over} ; }} }}"),
        // Assigned, and not changed.
        11 => format!("{name} := {name} ;"),
        _ => assignment,
    };
    words(&body)
}
