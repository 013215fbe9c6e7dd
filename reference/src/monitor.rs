//! A monitor with its regions and guards numbered ("The monitor file", last
//! paragraph).

use crate::evaluation;
use crate::grammar::{Block, Condition, File, Variable};
use crate::ranges;
use crate::tokens::Token;
use crate::tries::Fate;

#[derive(Clone, Debug)]
pub struct Monitor {
    pub variables: Vec<Variable>,
    pub keep: Condition,
    pub tries: Vec<Condition>,
    /// What became of each try; nothing before the choice is made.
    pub fates: Vec<Fate>,
    /// All regions; their numbers run on across methods.
    pub regions: Vec<Region>,
    /// All guards, numbered by first appearance.
    pub guards: Vec<Condition>,
}

#[derive(Clone, Debug)]
pub struct Region {
    /// The number of its guard.
    pub guard: usize,
    pub body: Block,
    /// Whether it is the first region of its method.
    pub is_first: bool,
    /// The method's next region, if there is one.
    pub next: Option<usize>,
}

impl Monitor {
    /// Numbers the regions and guards of a file.
    pub fn of(file: File) -> Monitor {
        let mut regions = Vec::new();
        let mut guards = Vec::new();
        let mut seen: Vec<Vec<Token>> = Vec::new();
        for method in file.methods {
            let last = method.len() - 1;
            for (index, region) in method.into_iter().enumerate() {
                let known = seen.iter().position(|tokens| same_guard(tokens, &region.guard_tokens));
                let guard = known.unwrap_or(seen.len());
                if known.is_none() {
                    seen.push(region.guard_tokens);
                    guards.push(region.guard);
                }
                let next = (index < last).then_some(regions.len() + 1);
                regions.push(Region { guard, body: region.body, is_first: index == 0, next });
            }
        }
        Monitor {
            variables: file.variables,
            keep: file.keep,
            tries: file.tries,
            fates: Vec::new(),
            regions,
            guards,
        }
    }

    pub fn count_of_states(&self) -> usize {
        ranges::count_of_states(&self.variables)
    }

    pub fn state_values(&self, number: usize) -> Vec<i64> {
        ranges::state_values(&self.variables, number)
    }

    pub fn start_values(&self) -> Vec<i64> {
        self.variables.iter().map(|variable| variable.start).collect()
    }

    /// The number of the state that the start values give.
    pub fn start_number(&self) -> usize {
        ranges::state_number(&self.variables, &self.start_values())
    }

    /// Whether keep and the chosen tries hold: keep alone before the choice is made.
    pub fn is_kept(&self, values: &[i64]) -> bool {
        self.keep_holds(values)
            && (0..self.fates.len())
                .filter(|number| self.fates[*number] == Fate::Chosen)
                .all(|number| self.try_holds(number, values))
    }

    pub fn keep_holds(&self, values: &[i64]) -> bool {
        self.holds(&self.keep, values)
    }

    pub fn try_holds(&self, number: usize, values: &[i64]) -> bool {
        self.holds(&self.tries[number], values)
    }

    /// After refusal 15 keep, tries and guards have a value in every state.
    fn holds(&self, condition: &Condition, values: &[i64]) -> bool {
        evaluation::holds(condition, &self.variables, values).expect("a condition with a value")
    }

    /// The chosen tries as sixteen bits, the first try the lowest.
    pub fn chosen(&self) -> u16 {
        let tries = self.fates.iter().enumerate();
        tries.filter(|(_, fate)| **fate == Fate::Chosen).map(|(number, _)| 1 << number).sum()
    }

    pub fn guard_holds(&self, guard: usize, values: &[i64]) -> bool {
        self.holds(&self.guards[guard], values)
    }

    /// The values after a region's body, or none if it assigns outside a range or meets what
    /// has no value.
    pub fn after_body(&self, region: usize, values: &[i64]) -> Option<Vec<i64>> {
        let mut after = values.to_vec();
        evaluation::run(&self.regions[region].body, &self.variables, &mut after)?;
        Some(after)
    }

    /// The states that meet the kept condition, lowest number first, with their
    /// numbers.
    pub fn kept_states(&self) -> Vec<(usize, Vec<i64>)> {
        (0..self.count_of_states())
            .map(|number| (number, self.state_values(number)))
            .filter(|(_, values)| self.is_kept(values))
            .collect()
    }
}

/// Two guards are one when their tokens are equal, numbers by value.
fn same_guard(one: &[Token], other: &[Token]) -> bool {
    one.len() == other.len() && one.iter().zip(other).all(|(a, b)| a.equals(b))
}
