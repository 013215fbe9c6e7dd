//! The grammar by recursive descent, and refusals 4 to 6. Where the grammar is
//! broken the parser stops; limits and names it only notes, for 4 goes before 5
//! and 5 before 6, each over the whole file.

use crate::monitor::{
    Comparison, Condition, Divided, Expression, Monitor, Operand, Region, Remainder, Statement,
    Term, Variable, MOST_VARIABLES,
};
use crate::tokens::{Kind, Token};
use crate::Refusal;

const MOST_TRIES: usize = 16;
const MOST_METHODS: usize = 8;
const MOST_REGIONS: usize = 16;

type Parsed<T> = Result<T, Refusal>;

/// The monitor that a file's tokens give; its ranges are not yet judged.
pub fn parse(tokens: &[Token], file_length: usize) -> Parsed<Monitor> {
    let mut parser = Parser {
        tokens,
        next: 0,
        file_length,
        variables: Vec::new(),
        methods: Vec::new(),
        regions: 0,
        guards: Vec::new(),
        divisors: Vec::new(),
        over_limit: None,
        misnamed: None,
    };
    let monitor = parser.file()?;
    match (parser.over_limit, parser.misnamed) {
        (Some(place), _) => Err(Refusal::at(5, place)),
        (_, Some(place)) => Err(Refusal::at(6, place)),
        _ => Ok(monitor),
    }
}

struct Parser<'a> {
    tokens: &'a [Token<'a>],
    next: usize,
    file_length: usize,
    variables: Vec<&'a [u8]>,
    methods: Vec<&'a [u8]>,
    regions: usize,
    /// The tokens of each different guard.
    guards: Vec<&'a [Token<'a>]>,
    /// Of each `mod` so far its byte and its divisor, those of bodies dropped.
    divisors: Vec<(usize, Operand)>,
    /// The first declaration past its limit (5).
    over_limit: Option<usize>,
    /// The first name declared twice, or used and not declared (6).
    misnamed: Option<usize>,
}

impl<'a> Parser<'a> {
    fn peek(&self) -> Option<Kind<'a>> {
        self.tokens.get(self.next).map(|token| token.kind)
    }

    /// The byte of the next token, or the file's length.
    fn place(&self) -> usize {
        self.tokens.get(self.next).map_or(self.file_length, |token| token.place)
    }

    fn refuse<T>(&self) -> Parsed<T> {
        Err(Refusal::at(4, self.place()))
    }

    fn accept(&mut self, kind: Kind) -> bool {
        let is_next = self.peek() == Some(kind);
        self.next += usize::from(is_next);
        is_next
    }

    fn expect(&mut self, kind: Kind) -> Parsed<()> {
        if self.accept(kind) {
            Ok(())
        } else {
            self.refuse()
        }
    }

    fn name(&mut self) -> Parsed<&'a [u8]> {
        let Some(Kind::Name(name)) = self.peek() else {
            return self.refuse();
        };
        self.next += 1;
        Ok(name)
    }

    fn number(&mut self) -> Parsed<i32> {
        let Some(Kind::Number(number)) = self.peek() else {
            return self.refuse();
        };
        self.next += 1;
        Ok(number)
    }

    fn integer(&mut self) -> Parsed<i32> {
        if self.accept(Kind::Minus) {
            Ok(-self.number()?)
        } else {
            self.number()
        }
    }

    /// A variable that is used, by its number.
    fn variable_used(&mut self) -> Parsed<usize> {
        let place = self.place();
        let name = self.name()?;
        match self.variables.iter().position(|variable| *variable == name) {
            Some(variable) => Ok(variable),
            None => {
                self.misnamed.get_or_insert(place);
                Ok(0)
            }
        }
    }

    fn file(&mut self) -> Parsed<Monitor> {
        self.expect(Kind::Monitor)?;
        self.name()?;
        self.expect(Kind::LBrace)?;
        let mut variables = vec![self.variable()?];
        while self.peek() == Some(Kind::Var) {
            variables.push(self.variable()?);
        }
        let keep_place = self.place();
        self.expect(Kind::Keep)?;
        let keep = self.condition()?;
        self.expect(Kind::Semicolon)?;
        let mut tries = Vec::new();
        while self.peek() == Some(Kind::Try) {
            if tries.len() >= MOST_TRIES {
                self.over_limit.get_or_insert(self.place());
            }
            self.next += 1;
            tries.push(self.condition()?);
            self.expect(Kind::Semicolon)?;
        }
        let mut guards = Vec::new();
        let mut regions = Vec::new();
        self.method(&mut guards, &mut regions)?;
        while self.peek() == Some(Kind::Method) {
            self.method(&mut guards, &mut regions)?;
        }
        self.expect(Kind::RBrace)?;
        if self.next < self.tokens.len() {
            return self.refuse();
        }
        let divisors = std::mem::take(&mut self.divisors);
        Ok(Monitor { variables, keep, keep_place, tries, guards, regions, divisors })
    }

    fn variable(&mut self) -> Parsed<Variable> {
        let place = self.place();
        self.expect(Kind::Var)?;
        if self.variables.len() >= MOST_VARIABLES {
            self.over_limit.get_or_insert(place);
        }
        let name_place = self.place();
        let name = self.name()?;
        if self.variables.contains(&name) {
            self.misnamed.get_or_insert(name_place);
        }
        self.variables.push(name);
        self.expect(Kind::Equals)?;
        let start = self.integer()?;
        self.expect(Kind::In)?;
        let lowest = self.integer()?;
        self.expect(Kind::Dots)?;
        let highest = self.integer()?;
        self.expect(Kind::Semicolon)?;
        Ok(Variable { place, start, lowest, highest })
    }

    fn method(&mut self, guards: &mut Vec<Condition>, regions: &mut Vec<Region>) -> Parsed<()> {
        let place = self.place();
        self.expect(Kind::Method)?;
        if self.methods.len() >= MOST_METHODS {
            self.over_limit.get_or_insert(place);
        }
        let name_place = self.place();
        let name = self.name()?;
        if self.methods.contains(&name) {
            self.misnamed.get_or_insert(name_place);
        }
        self.methods.push(name);
        self.expect(Kind::LBrace)?;
        let mut is_first = true;
        loop {
            let (guard, body) = self.region(guards)?;
            let is_last = self.peek() != Some(Kind::WaitUntil);
            regions.push(Region { guard, body, is_first, is_last });
            if is_last {
                break;
            }
            is_first = false;
        }
        self.expect(Kind::RBrace)
    }

    /// A region's guard, by number, and its body.
    fn region(&mut self, guards: &mut Vec<Condition>) -> Parsed<(usize, Vec<Statement>)> {
        let place = self.place();
        self.expect(Kind::WaitUntil)?;
        if self.regions >= MOST_REGIONS {
            self.over_limit.get_or_insert(place);
        }
        self.regions += 1;
        self.expect(Kind::LParen)?;
        let from = self.next;
        let condition = self.condition()?;
        let tokens = &self.tokens[from..self.next];
        self.expect(Kind::RParen)?;
        let guard = match self.guards.iter().position(|guard| same(guard, tokens)) {
            Some(guard) => guard,
            None => {
                self.guards.push(tokens);
                guards.push(condition);
                self.guards.len() - 1
            }
        };
        let asked = self.divisors.len();
        let body = self.block()?;
        self.divisors.truncate(asked);
        Ok((guard, body))
    }

    fn block(&mut self) -> Parsed<Vec<Statement>> {
        self.expect(Kind::LBrace)?;
        let mut statements = Vec::new();
        while !self.accept(Kind::RBrace) {
            statements.push(self.statement()?);
        }
        Ok(statements)
    }

    fn statement(&mut self) -> Parsed<Statement> {
        if self.accept(Kind::If) {
            self.expect(Kind::LParen)?;
            let before = self.divisors.len();
            let condition = self.condition()?;
            let divides = self.divisors.len() > before;
            self.expect(Kind::RParen)?;
            let then = self.block()?;
            let otherwise = if self.accept(Kind::Else) { self.block()? } else { Vec::new() };
            return Ok(Statement::If { condition, divides, then, otherwise });
        }
        let variable = self.variable_used()?;
        self.expect(Kind::Assign)?;
        let expression = self.expression()?;
        self.expect(Kind::Semicolon)?;
        if expression.remainders.is_empty() {
            Ok(Statement::Assign { variable, terms: expression.terms })
        } else {
            Ok(Statement::AssignDivided { variable, expression: Box::new(expression) })
        }
    }

    fn condition(&mut self) -> Parsed<Condition> {
        let first = self.conjunction()?;
        if self.peek() != Some(Kind::Or) {
            return Ok(first);
        }
        let mut parts = vec![first];
        while self.accept(Kind::Or) {
            parts.push(self.conjunction()?);
        }
        Ok(Condition::Any(parts))
    }

    fn conjunction(&mut self) -> Parsed<Condition> {
        let first = self.simple_condition()?;
        if self.peek() != Some(Kind::And) {
            return Ok(first);
        }
        let mut parts = vec![first];
        while self.accept(Kind::And) {
            parts.push(self.simple_condition()?);
        }
        Ok(Condition::All(parts))
    }

    fn simple_condition(&mut self) -> Parsed<Condition> {
        if self.accept(Kind::Not) {
            return Ok(Condition::Not(Box::new(self.simple_condition()?)));
        }
        if self.accept(Kind::LParen) {
            let condition = self.condition()?;
            self.expect(Kind::RParen)?;
            return Ok(condition);
        }
        if self.accept(Kind::True) {
            return Ok(Condition::Constant(true));
        }
        if self.accept(Kind::False) {
            return Ok(Condition::Constant(false));
        }
        let left = self.expression()?;
        let comparison = self.comparison()?;
        let right = self.expression()?;
        if left.remainders.is_empty() && right.remainders.is_empty() {
            Ok(Condition::Compare { left: left.terms, comparison, right: right.terms })
        } else {
            Ok(Condition::CompareDivided(Box::new(Divided { left, comparison, right })))
        }
    }

    fn comparison(&mut self) -> Parsed<Comparison> {
        let comparison = match self.peek() {
            Some(Kind::Same) => Comparison::Same,
            Some(Kind::Differs) => Comparison::Differs,
            Some(Kind::Below) => Comparison::Below,
            Some(Kind::AtMost) => Comparison::AtMost,
            Some(Kind::Above) => Comparison::Above,
            Some(Kind::AtLeast) => Comparison::AtLeast,
            _ => return self.refuse(),
        };
        self.next += 1;
        Ok(comparison)
    }

    fn expression(&mut self) -> Parsed<Expression> {
        let mut expression = Expression::default();
        self.term(false, &mut expression)?;
        loop {
            if self.accept(Kind::Plus) {
                self.term(false, &mut expression)?;
            } else if self.accept(Kind::Minus) {
                self.term(true, &mut expression)?;
            } else {
                return Ok(expression);
            }
        }
    }

    /// A variable or an integer, or two of them with `mod` between, which may be taken off.
    fn term(&mut self, taken_off: bool, expression: &mut Expression) -> Parsed<()> {
        let left = self.operand()?;
        let place = self.place();
        if self.accept(Kind::Mod) {
            let divisor = self.operand()?;
            self.divisors.push((place, divisor));
            expression.remainders.push(Remainder { left, divisor, taken_off });
            return Ok(());
        }
        expression.terms.push(match (left, taken_off) {
            (Operand::Variable(variable), false) => Term::Plus(variable),
            (Operand::Variable(variable), true) => Term::Minus(variable),
            (Operand::Constant(constant), false) => Term::Constant(constant),
            (Operand::Constant(constant), true) => Term::Constant(-constant),
        });
        Ok(())
    }

    fn operand(&mut self) -> Parsed<Operand> {
        Ok(match self.peek() {
            Some(Kind::Name(_)) => Operand::Variable(self.variable_used()?),
            _ => Operand::Constant(self.integer()?),
        })
    }
}

/// Two guards are one when their tokens are equal, numbers by value.
fn same(one: &[Token], other: &[Token]) -> bool {
    one.len() == other.len() && one.iter().zip(other).all(|(a, b)| a.kind == b.kind)
}
