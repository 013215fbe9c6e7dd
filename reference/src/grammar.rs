//! The grammar ("The monitor file", its list), and refusal 4.
//!
//! At every place of this grammar the next token alone decides what is read.
//! So a reader that stops at the first token it cannot take stops at the first
//! token after which no file can follow: all tokens before it were taken, and
//! whatever it still waits for could have been supplied.

use crate::answer::Answer;
use crate::tokens::{Kind, Token};

pub type Name = Vec<u8>;

#[derive(Clone, Debug)]
pub struct File {
    pub variables: Vec<Variable>,
    /// The byte of `keep`.
    pub keep_place: usize,
    pub keep: Condition,
    pub tries: Vec<Condition>,
    pub methods: Vec<Method>,
}

#[derive(Clone, Debug)]
pub struct Variable {
    /// The byte of `var`.
    pub place: usize,
    pub name: Name,
    pub start: i64,
    pub lowest: i64,
    pub highest: i64,
}

/// A method is its regions; its name matters to refusal 6 alone.
pub type Method = Vec<Region>;

#[derive(Clone, Debug)]
pub struct Region {
    pub guard: Condition,
    /// The guard's tokens, without the brackets around it.
    pub guard_tokens: Vec<Token>,
    pub body: Block,
}

pub type Block = Vec<Statement>;

#[derive(Clone, Debug)]
pub enum Statement {
    Assignment {
        name: Name,
        expression: Expression,
    },
    /// Without `else` the last block is empty, which runs the same.
    If {
        condition: Condition,
        then: Block,
        otherwise: Block,
    },
}

#[derive(Clone, Debug)]
pub enum Condition {
    Any(Vec<Condition>),
    All(Vec<Condition>),
    Not(Box<Condition>),
    Constant(bool),
    Compared { left: Expression, comparison: Comparison, right: Expression },
}

#[derive(Clone, Copy, Debug)]
pub enum Comparison {
    Equal,
    Unequal,
    Below,
    AtMost,
    Above,
    AtLeast,
}

/// The terms from left to right, each with whether it is taken off.
pub type Expression = Vec<(Joined, Term)>;

#[derive(Clone, Copy, Debug, PartialEq, Eq)]
pub enum Joined {
    Plus,
    Minus,
}

#[derive(Clone, Debug)]
pub enum Term {
    Operand(Operand),
    Remainder(Remainder),
}

/// Two operands with `mod` between (document 02, E5). It binds tighter than `+` and `-`, and a
/// second `mod` cannot follow.
#[derive(Clone, Debug)]
pub struct Remainder {
    pub left: Operand,
    /// The byte of `mod`.
    pub place: usize,
    pub divisor: Operand,
}

#[derive(Clone, Debug)]
pub enum Operand {
    Integer(i64),
    Variable(Name),
}

/// Reads the whole file from its tokens, or gives refusal 4.
pub fn read(tokens: &[Token], file_length: usize) -> Result<File, Answer> {
    let mut reader = Reader { tokens, next: 0, file_length };
    let file = reader.file()?;
    if reader.peek().is_some() {
        return Err(reader.refusal());
    }
    Ok(file)
}

struct Reader<'a> {
    tokens: &'a [Token],
    next: usize,
    file_length: usize,
}

impl Reader<'_> {
    fn peek(&self) -> Option<&Token> {
        self.tokens.get(self.next)
    }

    fn next_is(&self, text: &str) -> bool {
        self.peek().is_some_and(|token| token.is(text))
    }

    /// Refusal 4 at the next token, or at the file's length if it ends early.
    fn refusal(&self) -> Answer {
        Answer::at(4, self.peek().map_or(self.file_length, |token| token.place))
    }

    /// Takes the next token if it fits, and refuses it otherwise.
    fn take(&mut self, fits: impl Fn(&Token) -> bool) -> Result<Token, Answer> {
        match self.peek() {
            Some(token) if fits(token) => {
                let token = token.clone();
                self.next += 1;
                Ok(token)
            }
            _ => Err(self.refusal()),
        }
    }

    fn expect(&mut self, text: &str) -> Result<Token, Answer> {
        self.take(|token| token.is(text))
    }

    /// Takes the next token only if it is the given one.
    fn accept(&mut self, text: &str) -> bool {
        self.expect(text).is_ok()
    }

    fn name(&mut self) -> Result<Name, Answer> {
        Ok(self.take(Token::is_name)?.text)
    }

    fn number(&mut self) -> Result<i64, Answer> {
        Ok(self.take(|token| token.kind == Kind::Number)?.value())
    }

    /// A number with or without `-` before it.
    fn integer(&mut self) -> Result<i64, Answer> {
        if self.accept("-") {
            Ok(-self.number()?)
        } else {
            self.number()
        }
    }

    fn file(&mut self) -> Result<File, Answer> {
        self.expect("monitor")?;
        self.name()?;
        self.expect("{")?;
        let mut variables = vec![self.variable()?];
        while self.next_is("var") {
            variables.push(self.variable()?);
        }
        let keep_place = self.expect("keep")?.place;
        let keep = self.condition()?;
        self.expect(";")?;
        let mut tries = Vec::new();
        while self.accept("try") {
            tries.push(self.condition()?);
            self.expect(";")?;
        }
        let mut methods = vec![self.method()?];
        while self.next_is("method") {
            methods.push(self.method()?);
        }
        self.expect("}")?;
        Ok(File { variables, keep_place, keep, tries, methods })
    }

    fn variable(&mut self) -> Result<Variable, Answer> {
        let place = self.expect("var")?.place;
        let name = self.name()?;
        self.expect("=")?;
        let start = self.integer()?;
        self.expect("in")?;
        let lowest = self.integer()?;
        self.expect("..")?;
        let highest = self.integer()?;
        self.expect(";")?;
        Ok(Variable { place, name, start, lowest, highest })
    }

    fn method(&mut self) -> Result<Method, Answer> {
        self.expect("method")?;
        self.name()?;
        self.expect("{")?;
        let mut regions = vec![self.region()?];
        while self.next_is("waituntil") {
            regions.push(self.region()?);
        }
        self.expect("}")?;
        Ok(regions)
    }

    fn region(&mut self) -> Result<Region, Answer> {
        self.expect("waituntil")?;
        self.expect("(")?;
        let first = self.next;
        let guard = self.condition()?;
        let guard_tokens = self.tokens[first..self.next].to_vec();
        self.expect(")")?;
        let body = self.block()?;
        Ok(Region { guard, guard_tokens, body })
    }

    /// Statements between `{` and `}`; there may be none.
    fn block(&mut self) -> Result<Block, Answer> {
        self.expect("{")?;
        let mut statements = Vec::new();
        while !self.next_is("}") {
            statements.push(self.statement()?);
        }
        self.expect("}")?;
        Ok(statements)
    }

    fn statement(&mut self) -> Result<Statement, Answer> {
        if self.accept("if") {
            self.expect("(")?;
            let condition = self.condition()?;
            self.expect(")")?;
            let then = self.block()?;
            let otherwise = if self.accept("else") { self.block()? } else { Vec::new() };
            Ok(Statement::If { condition, then, otherwise })
        } else {
            let name = self.name()?;
            self.expect(":=")?;
            let expression = self.expression()?;
            self.expect(";")?;
            Ok(Statement::Assignment { name, expression })
        }
    }

    fn condition(&mut self) -> Result<Condition, Answer> {
        let mut conjunctions = vec![self.conjunction()?];
        while self.accept("||") {
            conjunctions.push(self.conjunction()?);
        }
        Ok(Condition::Any(conjunctions))
    }

    fn conjunction(&mut self) -> Result<Condition, Answer> {
        let mut simple = vec![self.simple_condition()?];
        while self.accept("&&") {
            simple.push(self.simple_condition()?);
        }
        Ok(Condition::All(simple))
    }

    fn simple_condition(&mut self) -> Result<Condition, Answer> {
        if self.accept("!") {
            Ok(Condition::Not(Box::new(self.simple_condition()?)))
        } else if self.accept("(") {
            let condition = self.condition()?;
            self.expect(")")?;
            Ok(condition)
        } else if self.accept("true") {
            Ok(Condition::Constant(true))
        } else if self.accept("false") {
            Ok(Condition::Constant(false))
        } else {
            let left = self.expression()?;
            let comparison = self.comparison()?;
            let right = self.expression()?;
            Ok(Condition::Compared { left, comparison, right })
        }
    }

    fn comparison(&mut self) -> Result<Comparison, Answer> {
        let comparisons = [
            ("==", Comparison::Equal),
            ("!=", Comparison::Unequal),
            ("<", Comparison::Below),
            ("<=", Comparison::AtMost),
            (">", Comparison::Above),
            (">=", Comparison::AtLeast),
        ];
        for (mark, comparison) in comparisons {
            if self.accept(mark) {
                return Ok(comparison);
            }
        }
        Err(self.refusal())
    }

    fn expression(&mut self) -> Result<Expression, Answer> {
        let mut terms = vec![(Joined::Plus, self.term()?)];
        loop {
            if self.accept("+") {
                terms.push((Joined::Plus, self.term()?));
            } else if self.accept("-") {
                terms.push((Joined::Minus, self.term()?));
            } else {
                return Ok(terms);
            }
        }
    }

    fn term(&mut self) -> Result<Term, Answer> {
        let left = self.operand()?;
        match self.expect("mod") {
            Ok(Token { place, .. }) => {
                Ok(Term::Remainder(Remainder { left, place, divisor: self.operand()? }))
            }
            Err(_) => Ok(Term::Operand(left)),
        }
    }

    /// An integer or a variable's name. A `-` here belongs to an integer.
    fn operand(&mut self) -> Result<Operand, Answer> {
        if self.peek().is_some_and(Token::is_name) {
            Ok(Operand::Variable(self.name()?))
        } else {
            Ok(Operand::Integer(self.integer()?))
        }
    }
}
