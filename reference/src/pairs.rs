//! Pairs of region and guard by their text (document 02, E2).
//!
//! A pair is touched when the body assigns at least one of the variables that the guard names.
//! Only the text counts, not the values: an assignment counts wherever it stands in the body,
//! reached or not, and a name wherever it stands in the guard, beside `mod` too. All regions go
//! with all guards, a region's own guard included.
//!
//! What is not touched has no entry, since the body changes nothing that the guard asks for.
//! `entries` does not go by that: it goes through the states of every pair, and what it finds is
//! laid beside this.

use crate::grammar::{Block, Condition, Name, Operand, Statement, Term};
use crate::monitor::Monitor;

/// How many pairs are touched.
pub fn count(monitor: &Monitor) -> usize {
    let mut count = 0;
    for region in 0..monitor.regions.len() {
        for guard in 0..monitor.guards.len() {
            count += usize::from(is_touched(monitor, region, guard));
        }
    }
    count
}

pub fn is_touched(monitor: &Monitor, region: usize, guard: usize) -> bool {
    let named = named(&monitor.guards[guard]);
    assigned(&monitor.regions[region].body).iter().any(|name| named.contains(name))
}

/// The left sides in a block, those under `if` and `else` included.
fn assigned(block: &Block) -> Vec<&Name> {
    let mut names = Vec::new();
    for statement in block {
        match statement {
            Statement::Assignment { name, .. } => names.push(name),
            Statement::If { then, otherwise, .. } => {
                names.extend(assigned(then));
                names.extend(assigned(otherwise));
            }
        }
    }
    names
}

/// The variables that a condition names.
fn named(condition: &Condition) -> Vec<&Name> {
    match condition {
        Condition::Any(parts) | Condition::All(parts) => parts.iter().flat_map(named).collect(),
        Condition::Not(part) => named(part),
        Condition::Constant(_) => Vec::new(),
        Condition::Compared { left, right, .. } => {
            let operands = left.iter().chain(right).flat_map(|(_, term)| operands(term));
            let names = operands.filter_map(|operand| match operand {
                Operand::Variable(name) => Some(name),
                Operand::Integer(_) => None,
            });
            names.collect()
        }
    }
}

/// What stands in a term, on both sides of `mod`.
fn operands(term: &Term) -> Vec<&Operand> {
    match term {
        Term::Operand(operand) => vec![operand],
        Term::Remainder(remainder) => vec![&remainder.left, &remainder.divisor],
    }
}
