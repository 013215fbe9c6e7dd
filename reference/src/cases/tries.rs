//! Tries for drawn monitors: such as hold at the start or not, need each other, fall one a
//! pass, or leave out the states where a body would leave a range.

use super::draws::Draws;
use super::monitors::{any_condition, Region, Sketch, Variable};
use super::words::{integer, words, Words};
use super::Size;
use crate::limits::MOST_TRIES;

/// Gives a sketch tries, and now and then a region that they are about.
pub fn add_tries(draws: &mut Draws, size: Size, sketch: &mut Sketch) {
    let most = if size.is_small { 3 } else { MOST_TRIES };
    match draws.below(7) {
        0 | 1 => falling(draws, most, sketch),
        2 => needing_each_other(draws, sketch),
        3 => leaving_out_a_fault(draws, sketch),
        _ => (),
    }
    let count = match sketch.tries.is_empty() {
        true => {
            let most = draws.pick(&[2, 4, 4, 8, most]).min(most);
            draws.count(1, most)
        }
        false => draws.pick(&[0, 0, 1, 2]),
    };
    for _ in 0..count {
        let place = draws.count(0, sketch.tries.len());
        sketch.tries.insert(place, any_try(draws, &sketch.variables));
    }
    sketch.tries.truncate(most + usize::from(size.is_small));
}

/// Any condition, mostly one that holds at the start values.
pub fn any_try(draws: &mut Draws, variables: &[Variable]) -> Words {
    match draws.below(10) {
        0..=4 => at_start(draws, variables),
        5 => {
            let joint = words(draws.pick(&["&&", "||"]));
            let [left, right] = [0, 1].map(|_| at_start(draws, variables));
            [left, joint, right].concat()
        }
        6 => [words("! ("), at_start(draws, variables), words(")")].concat(),
        7 => words(draws.pick(&["true", "true", "false"])),
        _ => any_condition(draws, variables, 1),
    }
}

/// A comparison that holds at the start values.
fn at_start(draws: &mut Draws, variables: &[Variable]) -> Words {
    let Variable { name, start, lowest, highest } = draws.pick(variables);
    let (comparison, value) = match draws.below(6) {
        0 => ("==", start),
        1 => ("<=", draws.between(start, highest)),
        2 => ("<", draws.between(start, highest) + 1),
        3 => (">=", draws.between(lowest, start)),
        4 if start < highest => ("!=", draws.between(start + 1, highest)),
        5 if start > lowest => ("!=", draws.between(lowest, start - 1)),
        _ => ("==", start),
    };
    [vec![name, comparison.into()], integer(draws, value)].concat()
}

/// Tries of which each needs another, and a region that counts a variable up: they fall one a
/// pass unless some other region, mostly none, breaks them sooner.
fn falling(draws: &mut Draws, most: usize, sketch: &mut Sketch) {
    let variable = draws.pick(&sketch.variables);
    let Variable { name, start, highest, .. } = &variable;
    let steps = (highest - start).min(most as i64);
    let comparison = draws.pick(&["!=", "!=", "<"]);
    let mut tries: Vec<Words> = (1..=steps)
        .map(|step| [words(&format!("{name} {comparison}")), integer(draws, start + step)].concat())
        .collect();
    match draws.below(3) {
        0 => tries.reverse(),
        1 => (0..tries.len()).for_each(|place| tries.swap(place, draws.below(steps as usize))),
        _ => (),
    }
    sketch.tries.extend(tries);
    if draws.chance(70) {
        let assigned = [name.clone(), ":=".into()];
        let regions = sketch.methods.iter_mut().flat_map(|method| &mut method.regions);
        for region in regions.filter(|region| region.body.windows(2).any(|two| two == assigned)) {
            region.body.clear();
        }
    }
    *sketch.any_region(draws) = counting(draws, &variable);
}

/// A region that counts a variable up to its highest value.
pub fn counting(draws: &mut Draws, variable: &Variable) -> Region {
    let name = &variable.name;
    let guard = [words(&format!("{name} <")), integer(draws, variable.highest)].concat();
    Region { guard, body: words(&format!("{name} := {name} + 1 ;")) }
}

/// Two tries about two variables, each of which is changed only where the other has been.
fn needing_each_other(draws: &mut Draws, sketch: &mut Sketch) {
    let [one, other] = [0, 1].map(|_| draws.pick(&sketch.variables));
    let changed = |draws: &mut Draws, changed: &Variable, needed: &Variable| {
        let value = draws.pick(&[changed.lowest, changed.highest]);
        let value = integer(draws, value).join(" ");
        let start = integer(draws, needed.start).join(" ");
        let Variable { name, .. } = changed;
        words(&format!("if ( {} != {start} ) {{ {name} := {value} ; }}", needed.name))
    };
    for (variable, needed) in [(&one, &other), (&other, &one)] {
        let start = integer(draws, variable.start);
        sketch.tries.push([words(&format!("{} ==", variable.name)), start].concat());
        let body = changed(draws, variable, needed);
        sketch.any_region(draws).body = body;
    }
}

/// A body that leaves a range unless a variable is at its start value, and the try that it is.
fn leaving_out_a_fault(draws: &mut Draws, sketch: &mut Sketch) {
    let Variable { name, start, highest, .. } = draws.pick(&sketch.variables);
    let [start, over] = [start, highest + 1].map(|value| integer(draws, value).join(" "));
    sketch.tries.push(words(&format!("{name} == {start}")));
    let body = words(&format!("if ( {name} != {start} ) {{ {name} := {over} ; }}"));
    sketch.any_region(draws).body = body;
}
