//! Ranges and refusal 7; states and their numbers ("The monitor file", last
//! paragraph).

use crate::answer::Answer;
use crate::grammar::Variable;

pub const LOWEST: i64 = -128;
pub const HIGHEST: i64 = 127;
pub const MOST_STATES: usize = 4096;

impl Variable {
    pub fn in_range(&self, value: i64) -> bool {
        self.lowest <= value && value <= self.highest
    }

    /// How many values the range holds.
    pub fn size(&self) -> usize {
        (self.highest - self.lowest + 1) as usize
    }
}

/// Refusal 7, variable by variable: every condition of one before the next, the
/// product being that of the ranges so far.
pub fn ranges(variables: &[Variable]) -> Result<(), Answer> {
    let bounds = LOWEST..=HIGHEST;
    let mut product = 1;
    for variable in variables {
        let good = variable.lowest <= variable.highest
            && bounds.contains(&variable.lowest)
            && bounds.contains(&variable.highest)
            && variable.in_range(variable.start);
        if !good {
            return Err(Answer::at(7, variable.place));
        }
        product *= variable.size();
        if product > MOST_STATES {
            return Err(Answer::at(7, variable.place));
        }
    }
    Ok(())
}

pub fn count_of_states(variables: &[Variable]) -> usize {
    variables.iter().map(Variable::size).product()
}

/// A state's number: mixed-radix, each value less its lowest, the first variable
/// weighing most.
pub fn state_number(variables: &[Variable], values: &[i64]) -> usize {
    let digits = variables.iter().zip(values);
    digits.fold(0, |number, (variable, value)| {
        number * variable.size() + (value - variable.lowest) as usize
    })
}

/// The values of the state with this number.
pub fn state_values(variables: &[Variable], number: usize) -> Vec<i64> {
    let mut rest = number;
    let mut values = Vec::new();
    for variable in variables.iter().rev() {
        values.push(variable.lowest + (rest % variable.size()) as i64);
        rest /= variable.size();
    }
    values.reverse();
    values
}
