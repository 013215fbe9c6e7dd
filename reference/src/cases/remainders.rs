//! Remainders for drawn monitors: in guards, keep and tries, where each has a value in every state;
//! in bodies, where one may lack it unless it is asked for; and such as lack one, for 15 and 9.

use super::draws::Draws;
use super::monitors::{any_comparison, any_value, Region, Sketch, Variable};
use super::words::{integer, words, Words};

/// Divisors of which the least and the greatest are met often.
const DIVISORS: [i64; 12] = [1, 2, 2, 2, 3, 3, 4, 5, 7, 10, 127, 999];

/// A number above 0, or a variable that has no other values.
fn good_divisor(draws: &mut Draws, variables: &[Variable]) -> Words {
    let above_0: Vec<&Variable> = variables.iter().filter(|v| v.lowest >= 1).collect();
    match above_0.is_empty() || draws.chance(40) {
        true => {
            let number = draws.pick(&DIVISORS);
            integer(draws, number)
        }
        false => vec![draws.pick(&above_0).name.clone()],
    }
}

/// A number below 1, or a variable that has such values; where there is none, a number.
fn bad_divisor(draws: &mut Draws, variables: &[Variable]) -> Words {
    let below_1: Vec<&Variable> = variables.iter().filter(|v| v.lowest < 1).collect();
    match below_1.is_empty() || draws.chance(50) {
        true => words(draws.pick(&["0", "0", "00", "- 0", "- 1", "- 2", "- 999"])),
        false => vec![draws.pick(&below_1).name.clone()],
    }
}

fn left_side(draws: &mut Draws, variables: &[Variable]) -> Words {
    match draws.chance(75) {
        true => vec![draws.pick(variables).name],
        false => {
            let number = draws.pick(&[-999, -7, -6, -1, 0, 1, 5, 6, 999]);
            integer(draws, number)
        }
    }
}

/// A remainder that has a value in every state.
pub fn any_remainder(draws: &mut Draws, variables: &[Variable]) -> Words {
    let left = left_side(draws, variables);
    [left, words("mod"), good_divisor(draws, variables)].concat()
}

/// A remainder that lacks one in some state.
fn bad_remainder(draws: &mut Draws, variables: &[Variable]) -> Words {
    let left = left_side(draws, variables);
    [left, words("mod"), bad_divisor(draws, variables)].concat()
}

/// A remainder beside a number that it may be, or beside a sum.
pub fn remainder_comparison(draws: &mut Draws, variables: &[Variable]) -> Words {
    let one = any_remainder(draws, variables);
    let comparison = draws.pick(&["==", "==", "==", "!=", "<", ">="]);
    let other = match draws.below(5) {
        0 => any_remainder(draws, variables),
        1 => [words("1 +"), any_remainder(draws, variables)].concat(),
        2 => [words("2 -"), any_remainder(draws, variables)].concat(),
        _ => words(draws.pick(&["0", "0", "1", "1", "2", "- 1"])),
    };
    [one, words(comparison), other].concat()
}

/// The fact that a variable has the remainder with which it starts.
fn as_at_start(draws: &mut Draws, variables: &[Variable]) -> Words {
    let Variable { name, start, .. } = draws.pick(variables);
    let divisor = draws.pick(&DIVISORS);
    let [value, number] =
        [start.rem_euclid(divisor), divisor].map(|number| integer(draws, number).join(" "));
    words(&format!("{name} mod {number} == {value}"))
}

/// Puts remainders into a sketch.
pub fn add_remainders(draws: &mut Draws, sketch: &mut Sketch) {
    let variables = &sketch.variables;
    if draws.chance(30) {
        sketch.keep = match draws.chance(60) {
            true => as_at_start(draws, variables),
            false => {
                let [one, other] =
                    [as_at_start(draws, variables), remainder_comparison(draws, variables)];
                [one, words("||"), other].concat()
            }
        };
    }
    if draws.chance(40) && sketch.tries.len() < 3 {
        let condition = match draws.chance(60) {
            true => as_at_start(draws, variables),
            false => remainder_comparison(draws, variables),
        };
        sketch.tries.push(condition);
    }
    for region in sketch.methods.iter_mut().flat_map(|method| &mut method.regions) {
        if draws.chance(60) {
            divide(draws, variables, region);
        }
    }
}

/// A region with a remainder in its guard or its body, which may leave its range.
fn divide(draws: &mut Draws, variables: &[Variable], region: &mut Region) {
    let variable = draws.pick(variables);
    let by = draws.pick(variables);
    let Variable { name, lowest, highest, .. } = &variable;
    let by_name = &by.name;
    let [low, high] = [*lowest, *highest].map(|value| integer(draws, value).join(" "));
    let round =
        format!("if ( {name} < {high} ) {{ {name} := {name} + 1 ; }} else {{ {name} := {low} ; }}");
    // A divisor whose remainders are in the range.
    let size = draws.between(1, (highest + 1).max(1));
    let size = integer(draws, size).join(" ");
    let value = any_value(draws, &variable);
    let value = integer(draws, value).join(" ");
    let condition = remainder_comparison(draws, variables).join(" ");
    let (guard, body) = match draws.below(9) {
        0 | 1 => (Some(condition), None),
        2 => (Some(format!("{name} mod {size} == 0")), Some(round)),
        3 => (None, Some(format!("{name} := {by_name} mod {size} ;"))),
        4 => (None, Some(format!("if ( {by_name} > 0 ) {{ {name} := {name} mod {by_name} ; }}"))),
        5 => (Some(format!("{by_name} > 0")), Some(format!("{name} := {value} mod {by_name} ;"))),
        6 => {
            (None, Some(format!("if ( {condition} ) {{ {name} := {value} ; }} else {{ {round} }}")))
        }
        7 => (None, Some(format!("{round} {name} := {name} mod {size} ;"))),
        // Without a value, and never reached.
        _ => (None, Some(format!("if ( {name} < {low} ) {{ {name} := {name} mod 0 ; }}"))),
    };
    if let Some(guard) = guard {
        region.guard = words(&guard);
    }
    if let Some(body) = body {
        region.body = words(&body);
    }
}

/// For 15: a remainder without a value in keep, a try or a guard, beside what would decide, and now
/// and then one with a value before it.
pub fn add_lacking(draws: &mut Draws, sketch: &mut Sketch) {
    for _ in 0..draws.pick(&[1, 1, 1, 2, 3]) {
        let variables = sketch.variables.clone();
        let mut lacking = [
            bad_remainder(draws, &variables),
            vec![any_comparison(draws)],
            words(draws.pick(&["0", "1", "- 1"])),
        ]
        .concat();
        match draws.below(5) {
            0 => lacking = [words("! ("), lacking, words(")")].concat(),
            1 => {
                let sum = [any_remainder(draws, &variables), words(draws.pick(&["+", "-"]))];
                lacking = [sum.concat(), lacking].concat();
            }
            _ => (),
        }
        let place = draws.below(8);
        let count = sketch.tries.len();
        let condition = match place {
            0..=2 => &mut sketch.keep,
            3 | 4 if count > 0 => &mut sketch.tries[draws.below(count)],
            3 | 4 => {
                sketch.tries.push(words("true"));
                &mut sketch.tries[0]
            }
            _ => &mut sketch.any_region(draws).guard,
        };
        match draws.below(4) {
            0 => *condition = lacking,
            1 => *condition = [condition.clone(), words("||"), lacking].concat(),
            2 => *condition = [condition.clone(), words("&&"), lacking].concat(),
            _ => {
                let beside = words(draws.pick(&["false &&", "true ||"]));
                *condition = [beside, lacking, words("||"), condition.clone()].concat();
            }
        }
    }
}

/// For 9: statements that meet a missing value, from some state or from every one.
pub fn lacking_statement(draws: &mut Draws, variables: &[Variable]) -> Words {
    let name = draws.pick(variables).name;
    let lacking = bad_remainder(draws, variables).join(" ");
    let statement = match draws.below(6) {
        0 => format!("{name} := {lacking} ;"),
        1 => format!("{name} := {name} + {lacking} ;"),
        2 => format!("if ( {lacking} == 0 ) {{ }}"),
        3 => format!("if ( false && {lacking} == 0 ) {{ }}"),
        4 => format!("if ( {name} == {name} || {lacking} < 1 ) {{ }} else {{ }}"),
        _ => format!("if ( {name} == {name} ) {{ {name} := {lacking} ; }}"),
    };
    words(&statement)
}
