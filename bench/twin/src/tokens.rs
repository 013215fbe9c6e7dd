//! Tokens, and refusals 1 to 3.

use crate::Refusal;

#[derive(Clone, Copy, Debug, PartialEq, Eq)]
pub enum Kind<'a> {
    Name(&'a [u8]),
    Number(i32),
    // Reserved words.
    Monitor,
    Var,
    In,
    Keep,
    Try,
    Method,
    WaitUntil,
    If,
    Else,
    True,
    False,
    Mod,
    // Marks.
    LBrace,
    RBrace,
    LParen,
    RParen,
    Semicolon,
    Equals,
    Dots,
    Assign,
    Same,
    Differs,
    Below,
    AtMost,
    Above,
    AtLeast,
    Plus,
    Minus,
    Not,
    And,
    Or,
}

#[derive(Clone, Copy, Debug)]
pub struct Token<'a> {
    pub kind: Kind<'a>,
    /// The byte at which it begins.
    pub place: usize,
}

const MOST_BYTES: usize = 8192;
const MOST_TOKENS: usize = 1024;
const MOST_DEPTH: i32 = 12;

/// All tokens of a file, or refusal 1, 2 or 3.
pub fn tokens(file: &[u8]) -> Result<Vec<Token<'_>>, Refusal> {
    if file.len() > MOST_BYTES {
        return Err(Refusal::at(1, 0));
    }
    let mut tokens = Vec::with_capacity(MOST_TOKENS);
    let mut place = 0;
    while place < file.len() {
        if matches!(file[place], b'\t' | b'\n' | b'\r' | b' ') {
            place += 1;
            continue;
        }
        let (kind, length) = token_at(&file[place..]).ok_or(Refusal::at(2, place))?;
        tokens.push(Token { kind, place });
        place += length;
    }
    limits(&tokens)?;
    Ok(tokens)
}

/// Refusal 3: a token past the 1,024th, or brackets too deep.
fn limits(tokens: &[Token]) -> Result<(), Refusal> {
    let mut depth = 0;
    for (index, token) in tokens.iter().enumerate() {
        let mut too_deep = false;
        match token.kind {
            Kind::LParen | Kind::LBrace => {
                depth += 1;
                too_deep = depth > MOST_DEPTH;
            }
            Kind::RParen | Kind::RBrace => depth -= 1,
            _ => {}
        }
        if too_deep || index >= MOST_TOKENS {
            return Err(Refusal::at(3, token.place));
        }
    }
    Ok(())
}

/// The token at the beginning of `rest`, which is not empty, and its length.
fn token_at(rest: &[u8]) -> Option<(Kind<'_>, usize)> {
    match rest[0] {
        b'A'..=b'Z' | b'a'..=b'z' => word_at(rest),
        b'0'..=b'9' => number_at(rest),
        first => mark_at(first, rest.get(1).copied()),
    }
}

fn word_at(rest: &[u8]) -> Option<(Kind<'_>, usize)> {
    let length = leading(rest, |byte| byte.is_ascii_alphanumeric() || byte == b'_');
    if length > 16 {
        return None;
    }
    let kind = match &rest[..length] {
        b"monitor" => Kind::Monitor,
        b"var" => Kind::Var,
        b"in" => Kind::In,
        b"keep" => Kind::Keep,
        b"try" => Kind::Try,
        b"method" => Kind::Method,
        b"waituntil" => Kind::WaitUntil,
        b"if" => Kind::If,
        b"else" => Kind::Else,
        b"true" => Kind::True,
        b"false" => Kind::False,
        b"mod" => Kind::Mod,
        name => Kind::Name(name),
    };
    Some((kind, length))
}

fn number_at(rest: &[u8]) -> Option<(Kind<'_>, usize)> {
    let length = leading(rest, |byte| byte.is_ascii_digit());
    if length > 3 {
        return None;
    }
    let value = rest[..length].iter().fold(0, |value, digit| value * 10 + i32::from(digit - b'0'));
    Some((Kind::Number(value), length))
}

/// How many bytes from the first on belong to a class.
fn leading(rest: &[u8], belongs: impl Fn(u8) -> bool) -> usize {
    rest.iter().position(|byte| !belongs(*byte)).unwrap_or(rest.len())
}

fn mark_at<'a>(first: u8, second: Option<u8>) -> Option<(Kind<'a>, usize)> {
    let found = match (first, second) {
        (b'.', Some(b'.')) => (Kind::Dots, 2),
        (b':', Some(b'=')) => (Kind::Assign, 2),
        (b'=', Some(b'=')) => (Kind::Same, 2),
        (b'!', Some(b'=')) => (Kind::Differs, 2),
        (b'<', Some(b'=')) => (Kind::AtMost, 2),
        (b'>', Some(b'=')) => (Kind::AtLeast, 2),
        (b'&', Some(b'&')) => (Kind::And, 2),
        (b'|', Some(b'|')) => (Kind::Or, 2),
        (b'{', _) => (Kind::LBrace, 1),
        (b'}', _) => (Kind::RBrace, 1),
        (b'(', _) => (Kind::LParen, 1),
        (b')', _) => (Kind::RParen, 1),
        (b';', _) => (Kind::Semicolon, 1),
        (b'=', _) => (Kind::Equals, 1),
        (b'<', _) => (Kind::Below, 1),
        (b'>', _) => (Kind::Above, 1),
        (b'+', _) => (Kind::Plus, 1),
        (b'-', _) => (Kind::Minus, 1),
        (b'!', _) => (Kind::Not, 1),
        _ => return None,
    };
    Some(found)
}
