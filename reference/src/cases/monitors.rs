//! Monitors that the check accepts, of many shapes.

use std::slice::from_ref;

use super::crowds::crowded;
use super::draws::Draws;
use super::pairs::{any_touching, set_apart, wide, wide_counts};
use super::remainders::{add_remainders, any_remainder, remainder_comparison};
use super::tries::add_tries;
use super::words::{integer, laid_out_to_fit, respelled_words, words, Words};
use super::Size;
use crate::check::check;
use crate::machines::Machines;
use crate::ranges::{HIGHEST, LOWEST, MOST_STATES};

/// A monitor before it is laid out as a file.
#[derive(Clone)]
pub struct Sketch {
    pub variables: Vec<Variable>,
    pub keep: Words,
    pub tries: Vec<Words>,
    pub methods: Vec<Method>,
}

#[derive(Clone)]
pub struct Variable {
    pub name: String,
    pub start: i64,
    pub lowest: i64,
    pub highest: i64,
}

#[derive(Clone)]
pub struct Method {
    pub name: String,
    pub regions: Vec<Region>,
}

#[derive(Clone)]
pub struct Region {
    pub guard: Words,
    pub body: Words,
}

impl Sketch {
    /// The tokens of the file.
    pub fn words(&self, draws: &mut Draws) -> Words {
        let mut file = words("monitor m {");
        for variable in &self.variables {
            file.extend(words(&format!("var {} =", variable.name)));
            file.extend(integer(draws, variable.start));
            file.extend(words("in"));
            file.extend(integer(draws, variable.lowest));
            file.extend(words(".."));
            file.extend(integer(draws, variable.highest));
            file.extend(words(";"));
        }
        file.extend(words("keep"));
        file.extend(self.keep.clone());
        file.extend(words(";"));
        for condition in &self.tries {
            file.extend(words("try"));
            file.extend(condition.clone());
            file.extend(words(";"));
        }
        for method in &self.methods {
            file.extend(words(&format!("method {} {{", method.name)));
            for region in &method.regions {
                file.extend(words("waituntil ("));
                file.extend(region.guard.clone());
                file.extend(words(") {"));
                file.extend(region.body.clone());
                file.extend(words("}"));
            }
            file.extend(words("}"));
        }
        file.extend(words("}"));
        file
    }

    /// The region with this number; they run on across methods.
    pub fn region(&mut self, number: usize) -> &mut Region {
        self.methods.iter_mut().flat_map(|method| &mut method.regions).nth(number).unwrap()
    }

    pub fn any_region(&mut self, draws: &mut Draws) -> &mut Region {
        let count = self.methods.iter().map(|method| method.regions.len()).sum();
        self.region(draws.below(count))
    }
}

/// How many variables, methods and regions a sketch shall have.
pub struct Counts {
    pub variables: usize,
    pub methods: usize,
    pub regions: usize,
}

impl Counts {
    pub fn any(draws: &mut Draws, size: Size) -> Counts {
        let [one, other] = [0, 1].map(|_| draws.count(1, size.methods));
        let methods = one.max(other);
        Counts {
            variables: draws.count(1, size.variables),
            methods,
            regions: draws.count(methods, size.regions.min(2 * methods + 1)),
        }
    }
}

/// A monitor that the check accepts: its sketch, its file, and its machines.
pub struct Accepted {
    pub sketch: Sketch,
    pub file: Vec<u8>,
    pub machines: Machines,
}

pub fn any_accepted(draws: &mut Draws, size: Size) -> Accepted {
    let counts = match draws.below(100) {
        0..=24 => {
            let counts = wide_counts(draws, size);
            return wide(draws, size, &counts);
        }
        25..=49 => return crowded(draws, size),
        50..=69 if size.states == MOST_STATES => return many_states(draws, size),
        _ => Counts::any(draws, size),
    };
    accepted(draws, size, &counts, |_, _| ())
}

/// A monitor with more than 256 states, so that their numbers need more than eight bits; one of
/// three such has as many as there may be.
fn many_states(draws: &mut Draws, size: Size) -> Accepted {
    let ranges = match draws.below(6) {
        0 | 1 => draws.pick(&ALL_STATES).to_vec(),
        2 => draws.pick(&ONE_STATE_FEWER).to_vec(),
        _ => any_ranges(draws, size),
    };
    let methods = draws.count(1, 4);
    let counts = Counts { variables: ranges.len(), methods, regions: draws.count(methods, 6) };
    let variables = |draws: &mut Draws| ranged_variables(draws, size, &ranges);
    let touches_one = draws.chance(50);
    accepted_with(draws, size, &counts, variables, |draws, sketch| {
        // All regions about one variable, so that they wake each other.
        if touches_one {
            let variable = draws.pick(&sketch.variables);
            for region in sketch.methods.iter_mut().flat_map(|method| &mut method.regions) {
                *region = matched_region(draws, from_ref(&variable));
            }
        }
    })
}

/// Sizes of ranges that make 4,096, and 4,095.
const ALL_STATES: [&[i64]; 10] = [
    &[64, 64],
    &[256, 16],
    &[16, 256],
    &[16, 16, 16],
    &[2, 32, 64],
    &[64, 1, 64],
    &[8, 8, 8, 8],
    &[8, 2, 16, 4, 4],
    &[4, 4, 4, 4, 4, 4],
    &[2, 2, 4, 4, 8, 8],
];
const ONE_STATE_FEWER: [&[i64]; 4] = [&[63, 65], &[195, 21], &[7, 9, 13, 5], &[3, 3, 5, 7, 13]];

/// Sizes of ranges that make more than 256, and no more than there may be.
fn any_ranges(draws: &mut Draws, size: Size) -> Vec<i64> {
    loop {
        let count = draws.count(2, size.variables);
        let ranges: Vec<i64> = (0..count)
            .map(|_| match draws.below(8) {
                0 => draws.between(1, HIGHEST - LOWEST + 1),
                1 | 2 => draws.between(1, 40),
                _ => draws.between(1, 7),
            })
            .collect();
        let states: i64 = ranges.iter().product();
        if 256 < states && states <= size.states as i64 {
            return ranges;
        }
    }
}

/// Variables with ranges of these sizes, wherever they begin; in some files all start at their
/// highest.
fn ranged_variables(draws: &mut Draws, size: Size, ranges: &[i64]) -> Vec<Variable> {
    let all_highest = draws.chance(25);
    let mut variables = Vec::new();
    for (number, range) in ranges.iter().enumerate() {
        let lowest = match draws.below(4) {
            0 => LOWEST,
            1 => draws.between(LOWEST, HIGHEST + 1 - range),
            2 => -(range / 2),
            _ => 0.min(HIGHEST + 1 - range),
        };
        let highest = lowest + range - 1;
        let start = if all_highest { highest } else { draws.between(lowest, highest) };
        let name = any_name(draws, size, "var", number);
        variables.push(Variable { name, start, lowest, highest });
    }
    variables
}

/// An accepted monitor of these counts, its sketch changed by `change` before it
/// is settled. Drawn anew until it fits the size.
pub fn accepted(
    draws: &mut Draws,
    size: Size,
    counts: &Counts,
    change: impl Fn(&mut Draws, &mut Sketch),
) -> Accepted {
    let variables = |draws: &mut Draws| any_variables(draws, size, counts.variables);
    accepted_with(draws, size, counts, variables, change)
}

/// The same, with variables that are drawn otherwise.
fn accepted_with(
    draws: &mut Draws,
    size: Size,
    counts: &Counts,
    variables: impl Fn(&mut Draws) -> Vec<Variable>,
    change: impl Fn(&mut Draws, &mut Sketch),
) -> Accepted {
    loop {
        let variables = variables(draws);
        let mut sketch = any_sketch(draws, size, counts, variables);
        change(draws, &mut sketch);
        if let Some(accepted) = settled(draws, size, sketch) {
            return accepted;
        }
    }
}

/// Redraws the parts that 8 and 9 refuse until the check accepts. None if the
/// file is refused otherwise or outgrows the size.
fn settled(draws: &mut Draws, size: Size, mut sketch: Sketch) -> Option<Accepted> {
    let mut redrawn = 0;
    loop {
        let tokens = sketch.words(draws);
        let file = laid_out_to_fit(draws, &tokens, size);
        if file.len() > size.bytes {
            return None;
        }
        match check(&file) {
            Ok(monitor) => return Some(Accepted { sketch, file, machines: Machines::of(monitor) }),
            Err(answer) if answer.number == 8 => sketch.keep = words("true"),
            Err(answer) if answer.number == 9 => {
                redrawn += 1;
                let body = match redrawn {
                    0..=12 => any_body(draws, &sketch.variables, 1),
                    13..=40 => safe_statement(draws, &sketch.variables),
                    _ => Vec::new(),
                };
                sketch.region(answer.first).body = body;
            }
            Err(_) => return None,
        }
    }
}

fn any_sketch(draws: &mut Draws, size: Size, counts: &Counts, variables: Vec<Variable>) -> Sketch {
    let keep = any_keep(draws, &variables);
    let mut guards: Vec<Words> = Vec::new();
    let mut methods: Vec<Method> = Vec::new();
    for number in 0..counts.regions {
        let mut region = match draws.below(10) {
            0..=2 => matched_region(draws, &variables),
            3..=5 => any_touching(draws, &variables),
            _ => Region {
                guard: any_guard(draws, &variables),
                body: any_body(draws, &variables, size.statements),
            },
        };
        if !guards.is_empty() && draws.chance(30) {
            let earlier = draws.pick(&guards);
            region.guard = respelled_words(draws, &earlier);
        }
        guards.push(region.guard.clone());
        // Every method gets one region, and the rest fall where they may.
        let methods_left = counts.methods - methods.len();
        let regions_left = counts.regions - number;
        if methods.is_empty() || (methods_left > 0 && draws.below(regions_left) < methods_left) {
            let name = any_name(draws, size, "method", methods.len());
            methods.push(Method { name, regions: vec![region] });
        } else {
            methods.last_mut().unwrap().regions.push(region);
        }
    }
    let mut sketch = Sketch { variables, keep, tries: Vec::new(), methods };
    match draws.below(100) {
        0..=49 => add_tries(draws, size, &mut sketch),
        50..=63 => {
            set_apart(draws, &mut sketch);
            return sketch;
        }
        _ => (),
    }
    if draws.chance(40) {
        add_remainders(draws, &mut sketch);
    }
    sketch
}

/// A name that is new among its kind, since it ends in its number.
fn any_name(draws: &mut Draws, size: Size, kind: &str, number: usize) -> String {
    let letter = draws.pick(b"abcdefghxyzABXYZ") as char;
    if size.is_small || draws.chance(60) {
        format!("{letter}{number}")
    } else {
        format!("{letter}_{kind}_{number}")
    }
}

fn any_variables(draws: &mut Draws, size: Size, count: usize) -> Vec<Variable> {
    let mut states_left = if draws.chance(80) { size.states.min(200) } else { size.states };
    let mut variables = Vec::new();
    for number in 0..count {
        let sizes = [1, 2, 2, 2, 2, 2, 3, 3, 3, 3, 4, 4, 4, 5, 5, 8, 10, 16, 64, 256];
        let range = draws.pick(&sizes).min(states_left) as i64;
        states_left /= range as usize;
        let lowest = match draws.below(8) {
            0 => -128,
            1 => 128 - range,
            2 => draws.between(-128, 128 - range),
            3 => -(range / 2),
            4 => 1.min(128 - range),
            _ => 0.min(128 - range),
        };
        let highest = lowest + range - 1;
        let start = if draws.chance(50) { lowest } else { draws.between(lowest, highest) };
        let name = any_name(draws, size, "var", number);
        variables.push(Variable { name, start, lowest, highest });
    }
    variables
}

fn any_keep(draws: &mut Draws, variables: &[Variable]) -> Words {
    if draws.chance(50) {
        return words("true");
    }
    any_condition(draws, variables, 1)
}

/// A region whose body fits its guard, so that others are woken by it.
pub fn matched_region(draws: &mut Draws, variables: &[Variable]) -> Region {
    let variable = draws.pick(variables);
    let name = &variable.name;
    let lowest = integer(draws, variable.lowest).join(" ");
    let highest = integer(draws, variable.highest).join(" ");
    let one = any_value(draws, &variable);
    let one = integer(draws, one).join(" ");
    let other = any_value(draws, &variable);
    let other = integer(draws, other).join(" ");
    let (guard, body) = match draws.below(6) {
        0 | 1 => (format!("{name} < {highest}"), format!("{name} := {name} + 1 ;")),
        2 | 3 => (format!("{name} > {lowest}"), format!("{name} := {name} - 1 ;")),
        4 => (format!("{name} == {one}"), format!("{name} := {other} ;")),
        _ => ("true".to_string(), format!("{name} := {other} ;")),
    };
    Region { guard: words(&guard), body: words(&body) }
}

fn any_guard(draws: &mut Draws, variables: &[Variable]) -> Words {
    match draws.below(10) {
        0 => words("true"),
        1..=5 => comparison_with_constant(draws, variables),
        6 => remainder_comparison(draws, variables),
        _ => any_condition(draws, variables, 2),
    }
}

pub fn any_condition(draws: &mut Draws, variables: &[Variable], depth: usize) -> Words {
    let shape = if depth == 0 { 0 } else { draws.below(12) };
    match shape {
        0..=3 => comparison_with_constant(draws, variables),
        4 => remainder_comparison(draws, variables),
        5 => {
            let mut condition = any_expression(draws, variables);
            condition.push(any_comparison(draws));
            condition.extend(any_expression(draws, variables));
            condition
        }
        6 => words(draws.pick(&["true", "false"])),
        7 => [words("! ("), any_condition(draws, variables, depth - 1), words(")")].concat(),
        8 => [words("!"), comparison_with_constant(draws, variables)].concat(),
        9 => [words("("), any_condition(draws, variables, depth - 1), words(")")].concat(),
        _ => {
            let left = any_condition(draws, variables, depth - 1);
            let joint = words(draws.pick(&["&&", "||"]));
            let right = any_condition(draws, variables, depth - 1);
            [left, joint, right].concat()
        }
    }
}

pub fn any_comparison(draws: &mut Draws) -> String {
    draws.pick(&["==", "==", "!=", "<", "<=", ">", ">="]).into()
}

pub fn comparison_with_constant(draws: &mut Draws, variables: &[Variable]) -> Words {
    let variable = draws.pick(variables);
    let constant = any_value(draws, &variable);
    let mut sides = [vec![variable.name], integer(draws, constant)];
    if draws.chance(10) {
        sides.reverse();
    }
    let [left, right] = sides;
    [left, vec![any_comparison(draws)], right].concat()
}

/// A value of the variable, mostly near an end of its range.
pub fn any_value(draws: &mut Draws, variable: &Variable) -> i64 {
    match draws.below(4) {
        0 => variable.lowest,
        1 => variable.highest,
        2 => variable.start,
        _ => draws.between(variable.lowest, variable.highest),
    }
}

fn any_expression(draws: &mut Draws, variables: &[Variable]) -> Words {
    let mut expression = any_term(draws, variables);
    for _ in 0..draws.below(3) {
        expression.push(draws.pick(&["+", "-"]).into());
        expression.extend(any_term(draws, variables));
    }
    expression
}

fn any_term(draws: &mut Draws, variables: &[Variable]) -> Words {
    match draws.below(10) {
        0..=4 => vec![draws.pick(variables).name],
        5 | 6 => any_remainder(draws, variables),
        _ => {
            let value = draws.between(-3, 3);
            integer(draws, value)
        }
    }
}

fn any_body(draws: &mut Draws, variables: &[Variable], most: usize) -> Words {
    let count = if draws.chance(10) { 0 } else { draws.count(1, most) };
    any_block(draws, variables, count, 2)
}

fn any_block(draws: &mut Draws, variables: &[Variable], count: usize, depth: usize) -> Words {
    let mut block = Vec::new();
    for _ in 0..count {
        block.extend(any_statement(draws, variables, depth));
    }
    block
}

fn any_statement(draws: &mut Draws, variables: &[Variable], depth: usize) -> Words {
    let variable = draws.pick(variables);
    let assignment = |expression: Words| {
        [vec![variable.name.clone(), ":=".into()], expression, words(";")].concat()
    };
    match draws.below(10) {
        0..=2 => {
            let value = any_value(draws, &variable);
            let constant = integer(draws, value);
            assignment(constant)
        }
        3 | 4 => {
            let joint = draws.pick(&["+", "-"]);
            assignment(vec![variable.name.clone(), joint.into(), "1".into()])
        }
        5 => assignment(any_expression(draws, variables)),
        6 | 7 => safe_statement(draws, variables),
        _ if depth == 0 => safe_statement(draws, variables),
        _ => {
            let mut statement = words("if (");
            statement.extend(any_condition(draws, variables, 1));
            statement.extend(words(") {"));
            let count = draws.below(3);
            statement.extend(any_block(draws, variables, count, depth - 1));
            statement.extend(words("}"));
            if draws.chance(50) {
                statement.extend(words("else {"));
                let count = draws.below(3);
                statement.extend(any_block(draws, variables, count, depth - 1));
                statement.extend(words("}"));
            }
            statement
        }
    }
}

/// A statement that leaves no range.
fn safe_statement(draws: &mut Draws, variables: &[Variable]) -> Words {
    let variable = draws.pick(variables);
    let name = [variable.name.clone()];
    let (mark, end, joint, other) = match draws.chance(50) {
        true => ("<", variable.highest, "+", variable.lowest),
        false => (">", variable.lowest, "-", variable.highest),
    };
    let end = integer(draws, end);
    let other = integer(draws, other);
    match draws.below(3) {
        0 => [&name, &words(":=")[..], &other, &words(";")].concat(),
        1 => {
            let tested = [&words("if (")[..], &name, &words(mark), &end].concat();
            let stepped = [&words(") {")[..], &name, &words(":="), &name].concat();
            [tested, stepped, words(joint), words("1 ; }")].concat()
        }
        _ => {
            let tested = [&words("if (")[..], &name, &words(mark), &end].concat();
            let stepped = [&words(") {")[..], &name, &words(":="), &name].concat();
            let turned = [&words("1 ; } else {")[..], &name, &words(":="), &other].concat();
            [tested, stepped, words(joint), turned, words("; }")].concat()
        }
    }
}
