//! What conditions, expressions and bodies do with a state.
//!
//! With a divisor below 1 `mod` has no value (document 02, E5). Then neither has the expression in
//! which it stands, nor the comparison and the conditions around it, whatever stands beside it.

use crate::grammar::{
    Comparison, Condition, Expression, Joined, Operand, Remainder, Statement, Term, Variable,
};

/// Where a name stands among the variables. After refusal 6 it always does.
fn index_of(variables: &[Variable], name: &[u8]) -> usize {
    variables.iter().position(|variable| variable.name == name).expect("a declared variable")
}

fn operand_value(operand: &Operand, variables: &[Variable], values: &[i64]) -> i64 {
    match operand {
        Operand::Integer(integer) => *integer,
        Operand::Variable(name) => values[index_of(variables, name)],
    }
}

/// The value of `left mod divisor`: from 0 to the divisor less one, and a multiple of the divisor
/// away from the left side. None with a divisor below 1.
pub fn remainder(of: &Remainder, variables: &[Variable], values: &[i64]) -> Option<i64> {
    let left = operand_value(&of.left, variables, values);
    let divisor = operand_value(&of.divisor, variables, values);
    (divisor >= 1).then(|| left.rem_euclid(divisor))
}

/// The value of an expression, taken from the left, if it has one. It may leave every range:
/// only assignments are judged.
pub fn value(expression: &Expression, variables: &[Variable], values: &[i64]) -> Option<i64> {
    let mut sum = 0;
    for (joined, term) in expression {
        let term = match term {
            Term::Operand(operand) => operand_value(operand, variables, values),
            Term::Remainder(of) => remainder(of, variables, values)?,
        };
        match joined {
            Joined::Plus => sum += term,
            Joined::Minus => sum -= term,
        }
    }
    Some(sum)
}

/// Whether a condition holds, if it has a value. Both sides of `&&` and `||` are always evaluated.
pub fn holds(condition: &Condition, variables: &[Variable], values: &[i64]) -> Option<bool> {
    let all = |parts: &[Condition]| -> Option<Vec<bool>> {
        parts.iter().map(|part| holds(part, variables, values)).collect()
    };
    Some(match condition {
        Condition::Any(parts) => all(parts)?.contains(&true),
        Condition::All(parts) => !all(parts)?.contains(&false),
        Condition::Not(part) => !holds(part, variables, values)?,
        Condition::Constant(truth) => *truth,
        Condition::Compared { left, comparison, right } => {
            let left = value(left, variables, values)?;
            let right = value(right, variables, values)?;
            match comparison {
                Comparison::Equal => left == right,
                Comparison::Unequal => left != right,
                Comparison::Below => left < right,
                Comparison::AtMost => left <= right,
                Comparison::Above => left > right,
                Comparison::AtLeast => left >= right,
            }
        }
    })
}

/// Runs a block on the values. None as soon as, at any moment, one assignment lies outside its
/// variable's range, or what is to be assigned or asked has no value.
pub fn run(block: &[Statement], variables: &[Variable], values: &mut [i64]) -> Option<()> {
    for statement in block {
        match statement {
            Statement::Assignment { name, expression } => {
                let index = index_of(variables, name);
                values[index] = value(expression, variables, values)?;
                if !variables[index].in_range(values[index]) {
                    return None;
                }
            }
            Statement::If { condition, then, otherwise } => {
                let chosen = if holds(condition, variables, values)? { then } else { otherwise };
                run(chosen, variables, values)?;
            }
        }
    }
    Some(())
}
