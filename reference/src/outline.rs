//! What a file has and where, and its states: the calls `outline`, `state_at` and
//! `number_of`, which are not in document 01. Their text:
//!
//! - Each takes a file and gives its verdict, 0, 1 to 9 or 15; `state_at` also takes a
//!   number, `number_of` also six numbers.
//! - `outline` tells of every file that the checks 1 to 7 and 15 pass, so beside 0, 8 and 9,
//!   and nothing beside the others: how many variables, methods, regions, guards and states there
//!   are; the number of the state at the start values; where the monitor's name, the
//!   condition of `keep` and that of each `try` stand; and each variable, method and
//!   region, in file order.
//! - Where something stands is told by bytes, counted from 0. A name, each where it is
//!   declared, stands from its first byte up to the byte behind its last. What is between
//!   two tokens stands from the byte behind the first one's last up to the byte at which
//!   the second one begins, blanks included.
//! - The condition of `keep` or of a `try` is between that word and its semicolon; a
//!   region's guard between the `(` behind its `waituntil` and the `)` that closes it; its
//!   body between the `{` behind that and the `}` that closes it.
//! - A variable is told by its name, start value, lowest and highest; a method by its name
//!   and the number of its first region, which is how many regions the methods before it
//!   have; a region by its guard, its body and its guard's number.
//! - `state_at` tells the state with a number, of every file that all checks up to 8 pass,
//!   so beside 0 and 9: whether the kept condition (keep and the chosen tries) holds
//!   there, the values, the guards that hold, and what the body of each region does from
//!   there: it does not run, since the kept condition or its guard does not hold there; it
//!   is a fault; or it ends at the state with some number. Where no state has the number,
//!   nothing is told.
//! - `number_of` tells the number of the state with some values, of every file that the
//!   checks 1 to 7 and 15 pass, where each value is in its variable's range. The numbers behind
//!   the variables are not read.

use std::ops::Range;

use crate::answer::Answer;
use crate::check::{check, check_to_15, check_to_8};
use crate::grammar;
use crate::limits::MOST_VARIABLES;
use crate::monitor::Monitor;
use crate::ranges::state_number;
use crate::tokens::Token;

/// The verdict of a file, and what is told beside it.
pub type Told<T> = (Result<(), Answer>, Option<T>);

#[derive(Clone, Debug, PartialEq, Eq)]
pub struct Outline {
    /// Where the monitor's name stands.
    pub title: Range<usize>,
    pub keep: Range<usize>,
    pub tries: Vec<Range<usize>>,
    pub variables: Vec<Variable>,
    pub methods: Vec<Method>,
    pub regions: Vec<Region>,
    pub guards: usize,
    pub states: usize,
    /// The number of the state at the start values.
    pub start: usize,
}

#[derive(Clone, Debug, PartialEq, Eq)]
pub struct Variable {
    pub name: Range<usize>,
    pub start: i64,
    pub lowest: i64,
    pub highest: i64,
}

#[derive(Clone, Debug, PartialEq, Eq)]
pub struct Method {
    pub name: Range<usize>,
    /// The number of its first region.
    pub first: usize,
}

#[derive(Clone, Debug, PartialEq, Eq)]
pub struct Region {
    pub guard: Range<usize>,
    pub body: Range<usize>,
    /// The number of its guard.
    pub number: usize,
}

#[derive(Clone, Debug, PartialEq, Eq)]
pub struct State {
    pub kept: bool,
    pub values: Vec<i64>,
    /// Of each guard, whether it holds.
    pub holds: Vec<bool>,
    /// Of each region, what its body does.
    pub after: Vec<After>,
}

#[derive(Clone, Copy, Debug, PartialEq, Eq)]
pub enum After {
    /// The body does not run.
    Never,
    /// It assigns outside a range, or meets a missing value.
    Fault,
    /// It ends at the state with this number.
    Ends(usize),
}

/// What a file has, and where.
pub fn outline(file: &[u8]) -> Told<Outline> {
    let told = passes_15(file).map(|(tokens, monitor)| outline_of(&tokens, &monitor));
    (verdict(file), told)
}

/// The state with a number.
pub fn state_at(file: &[u8], number: usize) -> Told<State> {
    let told = check_to_8(file)
        .ok()
        .filter(|monitor| number < monitor.count_of_states())
        .map(|monitor| state_of(&monitor, number));
    (verdict(file), told)
}

/// The number of the state with these values.
pub fn number_of(file: &[u8], values: [i64; MOST_VARIABLES]) -> Told<usize> {
    let told = passes_15(file).and_then(|(_, monitor)| {
        let variables = &monitor.variables;
        let in_range = variables.iter().zip(values).all(|(v, value)| v.in_range(value));
        in_range.then(|| state_number(variables, &values[..variables.len()]))
    });
    (verdict(file), told)
}

fn verdict(file: &[u8]) -> Result<(), Answer> {
    check(file).map(|_| ())
}

/// The tokens and the monitor of a file that the checks 1 to 7 and 15 pass.
fn passes_15(file: &[u8]) -> Option<(Vec<Token>, Monitor)> {
    let (tokens, tree) = check_to_15(file).ok()?;
    Some((tokens, Monitor::of(tree)))
}

/// In a file of the grammar each reserved word tells what stands behind it, so the words
/// are looked up, and not the tree.
fn outline_of(tokens: &[Token], monitor: &Monitor) -> Outline {
    // No condition has a semicolon: the next one is that of `keep` or `try`.
    let condition = |at: usize| between(tokens, at, next_of(tokens, ";", at));
    let variable = |(at, v): (usize, &grammar::Variable)| Variable {
        name: whole(&tokens[at + 1]),
        start: v.start,
        lowest: v.lowest,
        highest: v.highest,
    };
    let method = |at: usize| Method {
        name: whole(&tokens[at + 1]),
        first: places_of(&tokens[..at], "waituntil").len(),
    };
    Outline {
        title: whole(&tokens[1]),
        keep: condition(places_of(tokens, "keep")[0]),
        tries: places_of(tokens, "try").into_iter().map(condition).collect(),
        variables: places_of(tokens, "var")
            .into_iter()
            .zip(&monitor.variables)
            .map(variable)
            .collect(),
        methods: places_of(tokens, "method").into_iter().map(method).collect(),
        regions: places_of(tokens, "waituntil")
            .into_iter()
            .zip(&monitor.regions)
            .map(|(at, region)| region_at(tokens, at, region.guard))
            .collect(),
        guards: monitor.guards.len(),
        states: monitor.count_of_states(),
        start: monitor.start_number(),
    }
}

/// The region whose `waituntil` is the token `at`.
fn region_at(tokens: &[Token], at: usize, number: usize) -> Region {
    let opening = at + 1;
    let closing = closing_of(tokens, opening);
    let body = closing + 1;
    Region {
        guard: between(tokens, opening, closing),
        body: between(tokens, body, closing_of(tokens, body)),
        number,
    }
}

/// Which tokens are this one.
fn places_of(tokens: &[Token], text: &str) -> Vec<usize> {
    (0..tokens.len()).filter(|at| tokens[*at].is(text)).collect()
}

/// The first such token behind the token `at`.
fn next_of(tokens: &[Token], text: &str, at: usize) -> usize {
    (at + 1..tokens.len()).find(|next| tokens[*next].is(text)).expect("a file of the grammar")
}

/// The token that closes the bracket or brace that the token `opening` opens: the first
/// one with as many closed as opened up to it.
fn closing_of(tokens: &[Token], opening: usize) -> usize {
    let mut open = 0;
    for (at, token) in tokens.iter().enumerate().skip(opening) {
        if token.is("(") || token.is("{") {
            open += 1;
        }
        if token.is(")") || token.is("}") {
            open -= 1;
        }
        if open == 0 {
            return at;
        }
    }
    unreachable!("a file of the grammar closes what it opens")
}

/// Where a token stands.
fn whole(token: &Token) -> Range<usize> {
    token.place..token.place + token.text.len()
}

/// What is between two tokens.
fn between(tokens: &[Token], first: usize, second: usize) -> Range<usize> {
    whole(&tokens[first]).end..tokens[second].place
}

fn state_of(monitor: &Monitor, number: usize) -> State {
    let values = monitor.state_values(number);
    let kept = monitor.is_kept(&values);
    let holds: Vec<bool> =
        (0..monitor.guards.len()).map(|guard| monitor.guard_holds(guard, &values)).collect();
    let after = monitor
        .regions
        .iter()
        .enumerate()
        .map(|(region, of)| match kept && holds[of.guard] {
            false => After::Never,
            true => match monitor.after_body(region, &values) {
                Some(after) => After::Ends(state_number(&monitor.variables, &after)),
                None => After::Fault,
            },
        })
        .collect();
    State { kept, values, holds, after }
}
