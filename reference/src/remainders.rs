//! Refusal 15 (document 02, E5), between 7 and 8: a `mod` in keep, a try or a guard that has no
//! value in some state of the ranges.
//!
//! Each `mod` is asked by itself, in every state, kept or not, whatever stands beside it. Tries
//! count, chosen or not; bodies do not, nor the conditions of their ifs.

use crate::answer::Answer;
use crate::evaluation::remainder;
use crate::grammar::{Condition, File, Remainder, Term};
use crate::ranges;

/// The byte of the first such `mod` in the file.
pub fn remainders(file: &File) -> Result<(), Answer> {
    let variables = &file.variables;
    let states: Vec<Vec<i64>> = (0..ranges::count_of_states(variables))
        .map(|number| ranges::state_values(variables, number))
        .collect();
    let guards = file.methods.iter().flatten().map(|region| &region.guard);
    let conditions = [&file.keep].into_iter().chain(&file.tries).chain(guards);
    let lacks_a_value =
        |of: &&Remainder| states.iter().any(|values| remainder(of, variables, values).is_none());
    let lacking = conditions.flat_map(asked).filter(lacks_a_value);
    match lacking.map(|of| of.place).min() {
        Some(place) => Err(Answer::at(15, place)),
        None => Ok(()),
    }
}

/// Every `mod` of a condition.
fn asked(condition: &Condition) -> Vec<&Remainder> {
    match condition {
        Condition::Any(parts) | Condition::All(parts) => parts.iter().flat_map(asked).collect(),
        Condition::Not(part) => asked(part),
        Condition::Constant(_) => Vec::new(),
        Condition::Compared { left, right, .. } => {
            let terms = left.iter().chain(right).map(|(_, term)| term);
            let remainders = terms.filter_map(|term| match term {
                Term::Remainder(of) => Some(of),
                Term::Operand(_) => None,
            });
            remainders.collect()
        }
    }
}
