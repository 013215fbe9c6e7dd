//! A monitor as a tree, and what its conditions and bodies mean.

pub const MOST_VARIABLES: usize = 6;

/// A value for each variable; slots without a variable stay 0.
pub type Values = [i32; MOST_VARIABLES];

/// Some of the variables, one bit each.
pub type VariableSet = u8;

#[derive(Debug)]
pub struct Monitor {
    pub variables: Vec<Variable>,
    pub keep: Condition,
    /// The byte of `keep`.
    pub keep_place: usize,
    pub tries: Vec<Condition>,
    /// By number, that is by first appearance.
    pub guards: Vec<Condition>,
    /// By number; they run on across methods.
    pub regions: Vec<Region>,
    /// Of each `mod` in keep, tries and guards its byte and its divisor, in file order.
    pub divisors: Vec<(usize, Operand)>,
}

#[derive(Clone, Copy, Debug)]
pub struct Variable {
    /// The byte of `var`.
    pub place: usize,
    pub start: i32,
    pub lowest: i32,
    pub highest: i32,
}

#[derive(Debug)]
pub struct Region {
    /// The number of its guard.
    pub guard: usize,
    pub body: Vec<Statement>,
    pub is_first: bool,
    pub is_last: bool,
}

#[derive(Debug)]
pub enum Statement {
    Assign {
        variable: usize,
        terms: Vec<Term>,
    },
    /// The same with `mod`.
    AssignDivided {
        variable: usize,
        expression: Box<Expression>,
    },
    If {
        condition: Condition,
        /// Whether the condition has `mod`: then both sides of `&&` and `||` are evaluated.
        divides: bool,
        then: Vec<Statement>,
        otherwise: Vec<Statement>,
    },
}

#[derive(Debug)]
pub enum Condition {
    Any(Vec<Condition>),
    All(Vec<Condition>),
    Not(Box<Condition>),
    Constant(bool),
    Compare {
        left: Vec<Term>,
        comparison: Comparison,
        right: Vec<Term>,
    },
    /// The same with `mod` on a side.
    CompareDivided(Box<Divided>),
}

#[derive(Debug)]
pub struct Divided {
    pub left: Expression,
    pub comparison: Comparison,
    pub right: Expression,
}

#[derive(Clone, Copy, Debug)]
pub enum Comparison {
    Same,
    Differs,
    Below,
    AtMost,
    Above,
    AtLeast,
}

/// A sum of variables and integers, and of remainders.
#[derive(Debug, Default)]
pub struct Expression {
    pub terms: Vec<Term>,
    pub remainders: Vec<Remainder>,
}

#[derive(Clone, Copy, Debug)]
pub enum Term {
    Constant(i32),
    Plus(usize),
    Minus(usize),
}

/// Two operands with `mod` between, which may be taken off.
#[derive(Clone, Copy, Debug)]
pub struct Remainder {
    pub left: Operand,
    pub divisor: Operand,
    pub taken_off: bool,
}

/// What stands on either side of `mod`.
#[derive(Clone, Copy, Debug)]
pub enum Operand {
    Constant(i32),
    Variable(usize),
}

impl Operand {
    fn value(self, values: &Values) -> i32 {
        match self {
            Operand::Constant(constant) => constant,
            Operand::Variable(variable) => values[variable],
        }
    }

    fn named(self) -> VariableSet {
        match self {
            Operand::Constant(_) => 0,
            Operand::Variable(variable) => 1 << variable,
        }
    }

    /// The least value that it has in any state.
    pub fn least(self, variables: &[Variable]) -> i32 {
        match self {
            Operand::Constant(constant) => constant,
            Operand::Variable(variable) => variables[variable].lowest,
        }
    }
}

/// The sum of terms; it may leave every range.
fn sum(terms: &[Term], values: &Values) -> i32 {
    terms
        .iter()
        .map(|term| match *term {
            Term::Constant(constant) => constant,
            Term::Plus(variable) => values[variable],
            Term::Minus(variable) => -values[variable],
        })
        .sum()
}

/// The variables that terms name.
fn named_by(terms: &[Term]) -> VariableSet {
    terms.iter().fold(0, |named, term| match *term {
        Term::Constant(_) => named,
        Term::Plus(variable) | Term::Minus(variable) => named | 1 << variable,
    })
}

impl Expression {
    /// Its value, none if a divisor is below 1.
    fn value(&self, values: &Values) -> Option<i32> {
        let mut value = sum(&self.terms, values);
        for remainder in &self.remainders {
            let divisor = remainder.divisor.value(values);
            if divisor < 1 {
                return None;
            }
            let of = remainder.left.value(values).rem_euclid(divisor);
            value += if remainder.taken_off { -of } else { of };
        }
        Some(value)
    }

    /// The variables that it names.
    fn named(&self) -> VariableSet {
        let remainders = self.remainders.iter();
        remainders.fold(named_by(&self.terms), |named, remainder| {
            named | remainder.left.named() | remainder.divisor.named()
        })
    }
}

impl Divided {
    fn holds(&self, values: &Values) -> Option<bool> {
        Some(self.comparison.holds(self.left.value(values)?, self.right.value(values)?))
    }
}

/// The variables that a block's text assigns, reached or not.
fn assigned_by(block: &[Statement]) -> VariableSet {
    block.iter().fold(0, |assigned, statement| match statement {
        Statement::Assign { variable, .. } | Statement::AssignDivided { variable, .. } => {
            assigned | 1 << variable
        }
        Statement::If { then, otherwise, .. } => {
            assigned | assigned_by(then) | assigned_by(otherwise)
        }
    })
}

impl Condition {
    /// The variables that it names.
    fn named(&self) -> VariableSet {
        match self {
            Condition::Any(parts) | Condition::All(parts) => {
                parts.iter().fold(0, |named, part| named | part.named())
            }
            Condition::Not(part) => part.named(),
            Condition::Constant(_) => 0,
            Condition::Compare { left, right, .. } => named_by(left) | named_by(right),
            Condition::CompareDivided(divided) => divided.left.named() | divided.right.named(),
        }
    }

    /// Whether it holds, of a condition that has a value in every state: `&&` and `||` stop
    /// early.
    pub fn holds(&self, values: &Values) -> bool {
        match self {
            Condition::Any(parts) => parts.iter().any(|part| part.holds(values)),
            Condition::All(parts) => parts.iter().all(|part| part.holds(values)),
            Condition::Not(part) => !part.holds(values),
            Condition::Constant(truth) => *truth,
            Condition::Compare { left, comparison, right } => {
                comparison.holds(sum(left, values), sum(right, values))
            }
            Condition::CompareDivided(divided) => divided.holds(values).expect("divisors above 0"),
        }
    }

    /// Whether it holds, none if some part of it has no value.
    fn truth(&self, values: &Values) -> Option<bool> {
        Some(match self {
            Condition::Any(parts) => {
                parts.iter().try_fold(false, |any, part| Some(any | part.truth(values)?))?
            }
            Condition::All(parts) => {
                parts.iter().try_fold(true, |all, part| Some(all & part.truth(values)?))?
            }
            Condition::Not(part) => !part.truth(values)?,
            Condition::Constant(_) | Condition::Compare { .. } => self.holds(values),
            Condition::CompareDivided(divided) => divided.holds(values)?,
        })
    }
}

impl Comparison {
    fn holds(self, left: i32, right: i32) -> bool {
        match self {
            Comparison::Same => left == right,
            Comparison::Differs => left != right,
            Comparison::Below => left < right,
            Comparison::AtMost => left <= right,
            Comparison::Above => left > right,
            Comparison::AtLeast => left >= right,
        }
    }
}

impl Monitor {
    pub fn start_values(&self) -> Values {
        let mut values = [0; MOST_VARIABLES];
        for (value, variable) in values.iter_mut().zip(&self.variables) {
            *value = variable.start;
        }
        values
    }

    /// Runs a block; false as soon as an assignment is outside its range or a value is
    /// missing.
    pub fn run(&self, block: &[Statement], values: &mut Values) -> bool {
        block.iter().all(|statement| match statement {
            Statement::Assign { variable, terms } => {
                self.assign(*variable, sum(terms, values), values)
            }
            Statement::AssignDivided { variable, expression } => match expression.value(values) {
                Some(new) => self.assign(*variable, new, values),
                None => false,
            },
            Statement::If { condition, divides, then, otherwise } => {
                let truth = if *divides {
                    let Some(truth) = condition.truth(values) else { return false };
                    truth
                } else {
                    condition.holds(values)
                };
                self.run(if truth { then } else { otherwise }, values)
            }
        })
    }

    /// False where the value is outside the variable's range.
    fn assign(&self, variable: usize, new: i32, values: &mut Values) -> bool {
        values[variable] = new;
        let Variable { lowest, highest, .. } = self.variables[variable];
        lowest <= new && new <= highest
    }

    /// The guards that each region touches, one bit a guard: those that name a variable
    /// which its body's text assigns.
    pub fn touched(&self) -> Vec<u16> {
        let named: Vec<VariableSet> = self.guards.iter().map(Condition::named).collect();
        let touched_by = |region: &Region| {
            let assigned = assigned_by(&region.body);
            let guards = named.iter().enumerate();
            guards.fold(0, |set, (guard, named)| set | u16::from(named & assigned != 0) << guard)
        };
        self.regions.iter().map(touched_by).collect()
    }

    pub fn count_of_states(&self) -> usize {
        self.variables.iter().map(Variable::size).product()
    }

    /// The values of every state, by number: the last variable goes round fastest.
    pub fn states(&self) -> Vec<Values> {
        let count = self.count_of_states();
        let mut states = Vec::with_capacity(count);
        let mut values = [0; MOST_VARIABLES];
        for (value, variable) in values.iter_mut().zip(&self.variables) {
            *value = variable.lowest;
        }
        for _ in 0..count {
            states.push(values);
            for (value, variable) in values.iter_mut().zip(&self.variables).rev() {
                if *value < variable.highest {
                    *value += 1;
                    break;
                }
                *value = variable.lowest;
            }
        }
        states
    }

    /// The values of the state with a number.
    pub fn values_of(&self, number: usize) -> Values {
        let mut rest = number;
        let mut values = [0; MOST_VARIABLES];
        for (value, variable) in values.iter_mut().zip(&self.variables).rev() {
            *value = variable.lowest + (rest % variable.size()) as i32;
            rest /= variable.size();
        }
        values
    }

    /// The number of a state.
    pub fn number_of(&self, values: &Values) -> usize {
        self.variables.iter().zip(values).fold(0, |number, (variable, value)| {
            number * variable.size() + (value - variable.lowest) as usize
        })
    }
}

impl Variable {
    /// How many values its range holds.
    pub fn size(&self) -> usize {
        (self.highest - self.lowest + 1) as usize
    }
}
