//! The program once more, with remainders that can be read wrongly: so that tests can say which
//! wrong programs a case tells from the right one.

use std::cell::Cell;

use reference::frames::{frames, THREADS};
use reference::grammar::{
    self, Comparison, Condition, Expression, File, Joined, Name, Operand, Remainder, Statement,
    Term,
};
use reference::lines::MOST_TRACE_BYTES;
use reference::machines::Machines;
use reference::ranges::{count_of_states, state_number, state_values};
use reference::tokens::{tokens, Token};
use reference::{check, limits, names, ranges, tried, Answer, Fate, Machine, Monitor, Place};

/// How a program reads document 02's paragraph.
#[derive(Clone, Copy, Debug, PartialEq, Eq)]
pub enum Reading {
    Right,
    // What `mod` gives.
    /// A remainder has the left side's sign.
    LeftSign,
    /// It lies from 1 to the divisor.
    FromOne,
    /// By a divisor below 1 the left side stays as it is.
    LeftStays,
    /// By a divisor below 1 the value is 0.
    Nought,
    /// By a divisor below 0 its amount counts.
    Amount,
    /// The minus of a number on the left is taken after `mod`.
    MinusLast,
    /// The left side is the divisor.
    Swapped,
    /// `mod` binds looser than `+` and `-`.
    Looser,
    /// Sums are taken from the right.
    FromRight,
    // What a missing value does.
    /// `&&` and `||` stop early in a body.
    StopsEarly,
    /// An if without a value takes its else.
    IfIsFalse,
    /// An assignment without a value is not made.
    NotAssigned,
    /// An expression is gone through even where its statement is not reached.
    AllBranches,
    /// A body ends where a value is missing, and binds E1's choice with what it has changed.
    ChoiceBound,
    // Of which `mod` 15 asks, in which states.
    OnlyKept,
    OnlyStart,
    /// `&&` and `||` stop early in keep, tries and guards, for 15 too.
    Guarded,
    /// Only numbers are asked.
    OnlyNumbers,
    /// Only the first `mod` of keep, tries and guards is asked.
    OnlyFirst,
    /// Only the first `mod` of each of them is asked.
    OnlyFirstOfEach,
    KeepNotAsked,
    TriesNotAsked,
    GuardsNotAsked,
    BodiesToo,
    IfsToo,
    // Where 15 points, and when.
    DivisorByte,
    ConditionByte,
    /// The first `mod` of them all, with a value or without.
    FirstByte,
    LastByte,
    Before7,
    After8,
    After9,
    // Names, and words.
    /// E2 does not count names on the left of `mod`.
    LeftUnnamed,
    /// E2 does not count divisors.
    DivisorUnnamed,
    /// A second `mod` is passed over, with its divisor.
    Chained,
    /// `mod` may be a name.
    NotReserved,
}

pub const WRONG: [Reading; 36] = [
    Reading::LeftSign,
    Reading::FromOne,
    Reading::LeftStays,
    Reading::Nought,
    Reading::Amount,
    Reading::MinusLast,
    Reading::Swapped,
    Reading::Looser,
    Reading::FromRight,
    Reading::StopsEarly,
    Reading::IfIsFalse,
    Reading::NotAssigned,
    Reading::AllBranches,
    Reading::ChoiceBound,
    Reading::OnlyKept,
    Reading::OnlyStart,
    Reading::Guarded,
    Reading::OnlyNumbers,
    Reading::OnlyFirst,
    Reading::OnlyFirstOfEach,
    Reading::KeepNotAsked,
    Reading::TriesNotAsked,
    Reading::GuardsNotAsked,
    Reading::BodiesToo,
    Reading::IfsToo,
    Reading::DivisorByte,
    Reading::ConditionByte,
    Reading::FirstByte,
    Reading::LastByte,
    Reading::Before7,
    Reading::After8,
    Reading::After9,
    Reading::LeftUnnamed,
    Reading::DivisorUnnamed,
    Reading::Chained,
    Reading::NotReserved,
];

/// All that such a program tells of a file and a trace: the refusal, or the table, the count of
/// touched pairs and how both machines end; and the fates of tries beside 0 and 9.
pub fn told_by(file: &[u8], trace: &[u8], reading: Reading) -> String {
    let tried = || -> Result<String, Answer> {
        let (tokens, tree) = read(file, reading)?;
        let program = Program::of(tokens, tree, reading)?;
        let fates = program.fates();
        let kept = |state: &usize| program.is_kept(*state, &fates);
        let kept: Vec<usize> = (0..program.states.len()).filter(kept).collect();
        if let Err(answer) = program.check_9(&kept) {
            return Ok(format!("{} {fates:?}", line(answer)));
        }
        if reading == Reading::After9 {
            program.check_15()?;
        }
        let entries = program.entries(&kept);
        let runs = [Machine::Plain, Machine::Table].map(|machine| {
            match program.run(&entries, trace, machine) {
                Ok(end) => end,
                Err(answer) => line(answer),
            }
        });
        Ok(format!("{entries:?} {} {runs:?} {fates:?}", program.pairs()))
    };
    tried().unwrap_or_else(line)
}

/// The same of the library.
pub fn told_by_library(file: &[u8], trace: &[u8]) -> String {
    let fates = tried(file).1;
    let machines = match (check(file), &fates) {
        (Ok(monitor), _) => Machines::of(monitor),
        (Err(answer), Some(fates)) => return format!("{} {fates:?}", line(answer)),
        (Err(answer), None) => return line(answer),
    };
    let trace = &trace[..trace.len().min(MOST_TRACE_BYTES)];
    let entries: Vec<(usize, usize, bool, bool)> = machines
        .entries
        .iter()
        .map(|e| (e.region, e.guard, e.unconditional, e.broadcast))
        .collect();
    let runs = [Machine::Plain, Machine::Table].map(|machine| {
        match machines.run(trace, machines.monitor.start_number(), machine) {
            Ok(record) => {
                let mut queue: Vec<usize> =
                    (0..THREADS).filter(|t| record.is_waiting(*t)).collect();
                queue.sort_by_key(|thread| record.turns[*thread]);
                format!("{:?} {:?} {queue:?}", record.values, record.places)
            }
            Err(answer) => line(answer),
        }
    });
    let pairs = reference::pairs::count(&machines.monitor);
    format!("{entries:?} {pairs} {runs:?} {:?}", fates.unwrap())
}

fn line(answer: Answer) -> String {
    format!("{} at {} {}", answer.number, answer.first, answer.second)
}

/// The tokens and the tree of a file that the checks 1 to 6 pass.
fn read(file: &[u8], reading: Reading) -> Result<(Vec<Token>, File), Answer> {
    limits::bytes(file)?;
    let mut tokens = tokens(file)?;
    limits::tokens_and_depth(&tokens)?;
    let mut tree = grammar::read(&tokens, file.len());
    while let Err(answer) = tree {
        let at = tokens.iter().position(|token| token.place == answer.first && token.is("mod"));
        match (reading, at) {
            (Reading::Chained, Some(at)) if at > 1 && tokens[at - 2].is("mod") => {
                tokens.drain(at..(at + 2).min(tokens.len()));
            }
            (Reading::NotReserved, Some(at)) => tokens[at].text = b"mod_".to_vec(),
            _ => return Err(answer),
        }
        tree = grammar::read(&tokens, file.len());
    }
    limits::declarations(&tokens)?;
    names::names(&tokens)?;
    Ok((tokens, tree?))
}

/// A monitor that all checks up to 8 pass.
struct Program {
    reading: Reading,
    tokens: Vec<Token>,
    /// All guards, one for each region, as the file has them.
    asked: Vec<Condition>,
    monitor: Monitor,
    states: Vec<Vec<i64>>,
    /// The least byte of a `mod` that was found without a value.
    missing: Cell<Option<usize>>,
}

#[derive(Clone, Copy, PartialEq)]
enum Where {
    Keep,
    Try,
    Guard,
    Body,
}

impl Program {
    fn of(tokens: Vec<Token>, tree: File, reading: Reading) -> Result<Program, Answer> {
        let keep_place = tree.keep_place;
        let asked = tree.methods.iter().flatten().map(|region| region.guard.clone()).collect();
        let monitor = Monitor::of(tree);
        let missing = Cell::new(None);
        let mut program = Program { reading, tokens, asked, monitor, states: Vec::new(), missing };
        if reading == Reading::Before7 {
            program.check_15()?;
        }
        ranges::ranges(&program.monitor.variables)?;
        let variables = &program.monitor.variables;
        let states = 0..count_of_states(variables);
        program.states = states.map(|number| state_values(variables, number)).collect();
        if ![Reading::After8, Reading::After9].contains(&reading) {
            program.check_15()?;
        }
        let start = program.monitor.start_values();
        if program.truth(&program.monitor.keep, &start, Where::Keep) == Some(false) {
            return Err(Answer::at(8, keep_place));
        }
        if reading == Reading::After8 {
            program.check_15()?;
        }
        Ok(program)
    }

    fn is(&self, reading: Reading) -> bool {
        self.reading == reading
    }

    fn operand(&self, operand: &Operand, values: &[i64]) -> i64 {
        let variables = &self.monitor.variables;
        match operand {
            Operand::Integer(integer) => *integer,
            Operand::Variable(name) => {
                values[variables.iter().position(|v| v.name == *name).unwrap()]
            }
        }
    }

    fn divided(&self, left: i64, divisor: i64) -> Option<i64> {
        let usual = (divisor >= 1).then(|| left.rem_euclid(divisor));
        match self.reading {
            Reading::LeftSign => (divisor >= 1).then(|| left % divisor),
            Reading::FromOne => usual.map(|value| if value == 0 { divisor } else { value }),
            Reading::LeftStays => usual.or(Some(left)),
            Reading::Nought => usual.or(Some(0)),
            Reading::Amount => left.checked_rem_euclid(divisor),
            Reading::Swapped => (left >= 1).then(|| divisor.rem_euclid(left)),
            _ => usual,
        }
    }

    fn remainder(&self, of: &Remainder, values: &[i64]) -> Option<i64> {
        let [left, divisor] = [&of.left, &of.divisor].map(|operand| self.operand(operand, values));
        let value = match of.left {
            Operand::Integer(number) if number < 0 && self.is(Reading::MinusLast) => {
                self.divided(-left, divisor).map(|value| -value)
            }
            _ => self.divided(left, divisor),
        };
        if value.is_none() {
            let least = self.missing.get().map_or(of.place, |place| place.min(of.place));
            self.missing.set(Some(least));
        }
        value
    }

    fn value(&self, expression: &Expression, values: &[i64]) -> Option<i64> {
        let joined = |sum: i64, joined: Joined, term: i64| match joined {
            Joined::Plus => sum + term,
            Joined::Minus => sum - term,
        };
        if self.is(Reading::Looser) {
            // The sums between one `mod` and the next.
            let mut sums = vec![0];
            for (joint, term) in expression {
                let (left, behind) = match term {
                    Term::Operand(operand) => (operand, None),
                    Term::Remainder(of) => (&of.left, Some(&of.divisor)),
                };
                let last = sums.last_mut().unwrap();
                *last = joined(*last, *joint, self.operand(left, values));
                sums.extend(behind.map(|divisor| self.operand(divisor, values)));
            }
            return sums[1..]
                .iter()
                .try_fold(sums[0], |left, divisor| self.divided(left, *divisor));
        }
        let mut terms = Vec::new();
        for (joint, term) in expression {
            let value = match term {
                Term::Operand(operand) => Some(self.operand(operand, values)),
                Term::Remainder(of) => self.remainder(of, values),
            };
            terms.push((*joint, value));
        }
        let terms: Option<Vec<i64>> = terms.iter().map(|(_, value)| *value).collect();
        let joints: Vec<Joined> = expression.iter().map(|(joint, _)| *joint).collect();
        let terms = terms?;
        Some(if self.is(Reading::FromRight) {
            let mut value = terms[terms.len() - 1];
            for at in (1..terms.len()).rev() {
                value = joined(terms[at - 1], joints[at], value);
            }
            value
        } else {
            joints.iter().zip(&terms).fold(0, |sum, (joint, term)| joined(sum, *joint, *term))
        })
    }

    fn truth(&self, condition: &Condition, values: &[i64], stands: Where) -> Option<bool> {
        let truth = self.truth_of(condition, values, stands);
        // What is not asked for a value is false without one.
        let not_asked = match stands {
            Where::Keep => self.is(Reading::KeepNotAsked),
            Where::Try => self.is(Reading::TriesNotAsked),
            Where::Guard => self.is(Reading::GuardsNotAsked),
            Where::Body => self.is(Reading::IfIsFalse),
        };
        if not_asked {
            truth.or(Some(false))
        } else {
            truth
        }
    }

    fn truth_of(&self, condition: &Condition, values: &[i64], stands: Where) -> Option<bool> {
        let stops_early = match stands {
            Where::Body => self.is(Reading::StopsEarly),
            _ => self.is(Reading::Guarded),
        };
        let joined = |parts: &[Condition], decides: bool| {
            let mut truths = Vec::new();
            for part in parts {
                let truth = self.truth_of(part, values, stands);
                if stops_early && truth == Some(decides) {
                    return Some(decides);
                }
                truths.push(truth);
            }
            let truths: Option<Vec<bool>> = truths.into_iter().collect();
            Some(truths?.contains(&decides) == decides)
        };
        match condition {
            Condition::Any(parts) => joined(parts, true),
            Condition::All(parts) => joined(parts, false),
            Condition::Not(part) => Some(!self.truth_of(part, values, stands)?),
            Condition::Constant(truth) => Some(*truth),
            Condition::Compared { left, comparison, right } => {
                let [left, right] = [left, right].map(|side| self.value(side, values));
                let (left, right) = (left?, right?);
                Some(match comparison {
                    Comparison::Equal => left == right,
                    Comparison::Unequal => left != right,
                    Comparison::Below => left < right,
                    Comparison::AtMost => left <= right,
                    Comparison::Above => left > right,
                    Comparison::AtLeast => left >= right,
                })
            }
        }
    }

    /// Runs a block; false where there is a fault.
    fn run_block(&self, block: &[Statement], values: &mut Vec<i64>) -> bool {
        block.iter().all(|statement| match statement {
            Statement::Assignment { name, expression } => {
                let at = self.monitor.variables.iter().position(|v| v.name == *name).unwrap();
                match self.value(expression, values) {
                    Some(value) => {
                        let in_range = self.monitor.variables[at].in_range(value);
                        values[at] = value;
                        in_range
                    }
                    None => self.is(Reading::NotAssigned),
                }
            }
            Statement::If { condition, then, otherwise } => {
                let Some(truth) = self.truth(condition, values, Where::Body) else {
                    return false;
                };
                let (taken, other) = if truth { (then, otherwise) } else { (otherwise, then) };
                if self.is(Reading::AllBranches) && !self.has_values(other, values) {
                    return false;
                }
                self.run_block(taken, values)
            }
        })
    }

    /// Whether all in a block has a value with these values.
    fn has_values(&self, block: &[Statement], values: &[i64]) -> bool {
        block.iter().all(|statement| match statement {
            Statement::Assignment { expression, .. } => self.value(expression, values).is_some(),
            Statement::If { condition, then, otherwise } => {
                self.truth_of(condition, values, Where::Body).is_some()
                    && self.has_values(then, values)
                    && self.has_values(otherwise, values)
            }
        })
    }

    fn check_15(&self) -> Result<(), Answer> {
        let mut conditions: Vec<(Where, &Condition)> = vec![(Where::Keep, &self.monitor.keep)];
        conditions.extend(self.monitor.tries.iter().map(|condition| (Where::Try, condition)));
        conditions.extend(self.asked.iter().map(|condition| (Where::Guard, condition)));
        let mut asked: Vec<&Remainder> = Vec::new();
        let mut lacking: Vec<usize> = Vec::new();
        for (stands, condition) in conditions {
            let not_asked = match stands {
                Where::Keep => Reading::KeepNotAsked,
                Where::Try => Reading::TriesNotAsked,
                _ => Reading::GuardsNotAsked,
            };
            if self.is(Reading::Guarded) {
                self.missing.set(None);
                for values in &self.states {
                    self.truth(condition, values, stands);
                }
                lacking.extend(self.missing.get());
            } else if !self.is(not_asked) {
                let mut all = Vec::new();
                of_condition(condition, &mut all);
                all.truncate(if self.is(Reading::OnlyFirstOfEach) { 1 } else { all.len() });
                asked.extend(all);
            }
        }
        if self.is(Reading::BodiesToo) || self.is(Reading::IfsToo) {
            for region in &self.monitor.regions {
                of_block(&region.body, self.is(Reading::BodiesToo), &mut asked);
            }
        }
        asked.sort_by_key(|of| of.place);
        let first = asked.first().map(|of| of.place);
        asked.truncate(if self.is(Reading::OnlyFirst) { 1 } else { asked.len() });
        lacking.extend(asked.iter().filter(|of| self.lacks(of)).map(|of| of.place));
        let place = match self.reading {
            Reading::LastByte => lacking.into_iter().max(),
            Reading::FirstByte => lacking.first().and(first),
            _ => lacking.into_iter().min(),
        };
        let Some(place) = place else { return Ok(()) };
        let at = self.tokens.iter().position(|token| token.place == place).unwrap();
        let begins = |token: &&Token| ["keep", "try", "waituntil"].iter().any(|w| token.is(w));
        Err(Answer::at(
            15,
            match self.reading {
                Reading::DivisorByte => self.tokens[at + 1].place,
                Reading::ConditionByte => self.tokens[..at].iter().rfind(begins).unwrap().place,
                _ => place,
            },
        ))
    }

    /// Whether a `mod` lacks a value in some state in which it is asked.
    fn lacks(&self, of: &Remainder) -> bool {
        let is_number = matches!(of.divisor, Operand::Integer(_));
        let is_asked = |values: &&Vec<i64>| match self.reading {
            Reading::OnlyKept => self.truth(&self.monitor.keep, values, Where::Keep) == Some(true),
            Reading::OnlyStart => **values == self.monitor.start_values(),
            Reading::OnlyNumbers => is_number,
            _ => true,
        };
        if self.is(Reading::Before7) {
            // There may be no states, or too many.
            return match &of.divisor {
                Operand::Integer(number) => *number < 1,
                Operand::Variable(name) => {
                    self.monitor.variables.iter().any(|v| v.name == *name && v.lowest < 1)
                }
            };
        }
        let mut states = self.states.iter().filter(is_asked);
        states.any(|values| self.remainder(of, values).is_none())
    }

    fn holds(&self, condition: &Condition, values: &[i64], stands: Where) -> bool {
        self.truth(condition, values, stands) == Some(true)
    }

    fn guard_holds(&self, guard: usize, state: usize) -> bool {
        self.holds(&self.monitor.guards[guard], &self.states[state], Where::Guard)
    }

    fn try_holds(&self, number: usize, state: usize) -> bool {
        self.holds(&self.monitor.tries[number], &self.states[state], Where::Try)
    }

    fn keep_holds(&self, state: usize) -> bool {
        self.holds(&self.monitor.keep, &self.states[state], Where::Keep)
    }

    fn is_kept(&self, state: usize, fates: &[Fate]) -> bool {
        let mut chosen = (0..fates.len()).filter(|number| fates[*number] == Fate::Chosen);
        self.keep_holds(state) && chosen.all(|number| self.try_holds(number, state))
    }

    fn after(&self, region: usize, state: usize) -> Option<usize> {
        let mut values = self.states[state].clone();
        let block = &self.monitor.regions[region].body;
        let done = self.run_block(block, &mut values);
        done.then(|| state_number(&self.monitor.variables, &values))
    }

    /// The state that the choice takes a body to lead to.
    fn after_for_choice(&self, region: usize, state: usize) -> Option<usize> {
        if !self.is(Reading::ChoiceBound) {
            return self.after(region, state);
        }
        let mut values = self.states[state].clone();
        self.run_block(&self.monitor.regions[region].body, &mut values);
        let mut ranges = self.monitor.variables.iter().zip(&values);
        let in_range = ranges.all(|(variable, value)| variable.in_range(*value));
        in_range.then(|| state_number(&self.monitor.variables, &values))
    }

    fn fates(&self) -> Vec<Fate> {
        let start = self.monitor.start_number();
        let mut fates: Vec<Fate> = (0..self.monitor.tries.len())
            .map(|number| match self.try_holds(number, start) {
                true => Fate::Chosen,
                false => Fate::FalseAtStart,
            })
            .collect();
        let mut moves = Vec::new();
        if !fates.is_empty() {
            for (region, of) in self.monitor.regions.iter().enumerate() {
                let runs =
                    |state: &usize| self.keep_holds(*state) && self.guard_holds(of.guard, *state);
                for state in (0..self.states.len()).filter(runs) {
                    let after = self.after_for_choice(region, state);
                    moves.extend(after.map(|after| (region, state, after)));
                }
            }
        }
        for pass in 1.. {
            let before = fates.clone();
            for number in (0..before.len()).filter(|number| before[*number] == Fate::Chosen) {
                let broken = moves.iter().find(|(_, state, after)| {
                    self.is_kept(*state, &before) && !self.try_holds(number, *after)
                });
                if let Some((region, state, _)) = broken {
                    fates[number] = Fate::Broken { pass, region: *region, state: *state };
                }
            }
            if fates == before {
                break;
            }
        }
        fates
    }

    fn check_9(&self, kept: &[usize]) -> Result<(), Answer> {
        for (number, region) in self.monitor.regions.iter().enumerate() {
            for state in kept.iter().filter(|state| self.guard_holds(region.guard, **state)) {
                if !self.after(number, *state).is_some_and(|after| kept.contains(&after)) {
                    return Err(Answer::at_both(9, number, *state));
                }
            }
        }
        Ok(())
    }

    /// Region, guard, whether it is unconditional, whether a broadcast.
    fn entries(&self, kept: &[usize]) -> Vec<(usize, usize, bool, bool)> {
        let count = self.monitor.regions.len();
        let moves = |region: usize| -> Vec<(usize, usize)> {
            let guard = self.monitor.regions[region].guard;
            let runs = kept.iter().filter(|state| self.guard_holds(guard, **state));
            runs.map(|state| (*state, self.after(region, *state).unwrap())).collect()
        };
        let moves: Vec<Vec<(usize, usize)>> = (0..count).map(moves).collect();
        let mut entries = Vec::new();
        for region in 0..count {
            for guard in 0..self.monitor.guards.len() {
                let was_false = moves[region].iter().filter(|m| !self.guard_holds(guard, m.0));
                let made: Vec<bool> = was_false.map(|m| self.guard_holds(guard, m.1)).collect();
                let having = (0..count).filter(|r| self.monitor.regions[*r].guard == guard);
                let broadcast = having
                    .into_iter()
                    .any(|r| moves[r].iter().any(|m| self.guard_holds(guard, m.1)));
                if made.contains(&true) {
                    entries.push((region, guard, !made.contains(&false), broadcast));
                }
            }
        }
        entries
    }

    fn pairs(&self) -> usize {
        let mut count = 0;
        for region in &self.monitor.regions {
            let mut assigned = Vec::new();
            assigned_in(&region.body, &mut assigned);
            for guard in &self.monitor.guards {
                let mut named = Vec::new();
                self.named_in(guard, &mut named);
                count += usize::from(assigned.iter().any(|name| named.contains(name)));
            }
        }
        count
    }

    fn named_in<'a>(&self, condition: &'a Condition, named: &mut Vec<&'a Name>) {
        match condition {
            Condition::Any(parts) | Condition::All(parts) => {
                parts.iter().for_each(|part| self.named_in(part, named));
            }
            Condition::Not(part) => self.named_in(part, named),
            Condition::Constant(_) => (),
            Condition::Compared { left, right, .. } => {
                for (_, term) in left.iter().chain(right) {
                    let operands = match term {
                        Term::Operand(operand) => vec![operand],
                        Term::Remainder(of) => match self.reading {
                            Reading::LeftUnnamed => vec![&of.divisor],
                            Reading::DivisorUnnamed => vec![&of.left],
                            _ => vec![&of.left, &of.divisor],
                        },
                    };
                    for operand in operands {
                        if let Operand::Variable(name) = operand {
                            named.push(name);
                        }
                    }
                }
            }
        }
    }

    /// The values, the places and the waiters by arrival at the end of a run.
    fn run(
        &self,
        entries: &[(usize, usize, bool, bool)],
        trace: &[u8],
        machine: Machine,
    ) -> Result<String, Answer> {
        let regions = &self.monitor.regions;
        let mut state = self.monitor.start_number();
        let mut places = [Place::Idle; THREADS];
        let mut notified = [false; THREADS];
        let mut queue: Vec<usize> = Vec::new();
        let list = frames(&trace[..trace.len().min(MOST_TRACE_BYTES)])?;
        for (index, frame) in list.into_iter().enumerate() {
            let (thread, region) = (frame.thread, frame.region);
            let due = places.iter().position(|place| matches!(place, Place::Due(_)));
            let may_be_at = region < regions.len()
                && due.is_none_or(|due| due == thread)
                && match places[thread] {
                    Place::Idle => regions[region].is_first,
                    Place::Waiting(at) | Place::Due(at) => at == region,
                };
            if !may_be_at {
                return Err(Answer::at(13, index));
            }
            let guard = regions[region].guard;
            let waits_on = |thread: usize, guard: usize, places: &[Place; THREADS]| {
                let Place::Waiting(at) = places[thread] else { return false };
                regions[at].guard == guard
            };
            let waits = matches!(places[thread], Place::Waiting(_));
            let first = queue.iter().find(|t| waits_on(**t, guard, &places) && notified[**t]);
            let allowed = frame.flag == self.guard_holds(guard, state)
                && (!waits || notified[thread] && (!frame.flag || first == Some(&thread)));
            if !allowed {
                return Err(Answer::at(14, index));
            }
            notified[thread] = false;
            if !frame.flag {
                if !waits {
                    queue.push(thread);
                    places[thread] = Place::Waiting(region);
                }
                continue;
            }
            state = self.after(region, state).expect("a checked body");
            queue.retain(|other| *other != thread);
            places[thread] = regions[region].next.map_or(Place::Idle, Place::Due);
            let on_guard = |guard: usize| -> Vec<usize> {
                queue.iter().copied().filter(|t| waits_on(*t, guard, &places)).collect()
            };
            let mut told = Vec::new();
            match machine {
                Machine::Plain => {
                    let holding = 0..self.monitor.guards.len();
                    for guard in holding.filter(|guard| self.guard_holds(*guard, state)) {
                        told.extend(on_guard(guard));
                    }
                }
                Machine::Table => {
                    for (_, guard, unconditional, broadcast) in
                        entries.iter().filter(|entry| entry.0 == region)
                    {
                        if *unconditional || self.guard_holds(*guard, state) {
                            let picked = if *broadcast { THREADS } else { 1 };
                            told.extend(on_guard(*guard).into_iter().take(picked));
                        }
                    }
                }
            }
            told.into_iter().for_each(|thread| notified[thread] = true);
        }
        Ok(format!("{:?} {places:?} {queue:?}", self.states[state]))
    }
}

fn of_expression<'a>(expression: &'a Expression, all: &mut Vec<&'a Remainder>) {
    for (_, term) in expression {
        if let Term::Remainder(of) = term {
            all.push(of);
        }
    }
}

fn of_condition<'a>(condition: &'a Condition, all: &mut Vec<&'a Remainder>) {
    match condition {
        Condition::Any(parts) | Condition::All(parts) => {
            parts.iter().for_each(|part| of_condition(part, all));
        }
        Condition::Not(part) => of_condition(part, all),
        Condition::Constant(_) => (),
        Condition::Compared { left, right, .. } => {
            of_expression(left, all);
            of_expression(right, all);
        }
    }
}

/// Every `mod` of a block, or those of the conditions of its ifs alone.
fn of_block<'a>(block: &'a [Statement], assigned_too: bool, all: &mut Vec<&'a Remainder>) {
    for statement in block {
        match statement {
            Statement::Assignment { expression, .. } if assigned_too => {
                of_expression(expression, all);
            }
            Statement::Assignment { .. } => (),
            Statement::If { condition, then, otherwise } => {
                of_condition(condition, all);
                of_block(then, assigned_too, all);
                of_block(otherwise, assigned_too, all);
            }
        }
    }
}

fn assigned_in<'a>(block: &'a [Statement], assigned: &mut Vec<&'a Name>) {
    for statement in block {
        match statement {
            Statement::Assignment { name, .. } => assigned.push(name),
            Statement::If { then, otherwise, .. } => {
                assigned_in(then, assigned);
                assigned_in(otherwise, assigned);
            }
        }
    }
}
