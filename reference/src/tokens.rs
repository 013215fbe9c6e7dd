//! Words, numbers and marks ("The monitor file", first paragraph), and refusal 2.

use crate::answer::Answer;

pub const LONGEST_WORD: usize = 16;
pub const LONGEST_NUMBER: usize = 3;

pub const RESERVED: [&str; 12] = [
    "monitor",
    "var",
    "in",
    "keep",
    "try",
    "method",
    "waituntil",
    "if",
    "else",
    "true",
    "false",
    "mod",
];

/// The marks, two-byte ones first: the first that fits is then the longest.
pub const MARKS: [&str; 19] = [
    "..", ":=", "==", "!=", "<=", ">=", "&&", "||", //
    "{", "}", "(", ")", ";", "=", "<", ">", "+", "-", "!",
];

#[derive(Clone, Copy, Debug, PartialEq, Eq)]
pub enum Kind {
    Word,
    Number,
    Mark,
}

/// A token: its kind, its bytes, and the byte at which it begins.
#[derive(Clone, Debug, PartialEq, Eq)]
pub struct Token {
    pub kind: Kind,
    pub text: Vec<u8>,
    pub place: usize,
}

impl Token {
    /// Whether this is the given reserved word or mark. The kind need not be
    /// asked: no mark reads like a word.
    pub fn is(&self, text: &str) -> bool {
        self.text == text.as_bytes()
    }

    /// A name is a word that is not reserved; words are compared byte for byte.
    pub fn is_name(&self) -> bool {
        self.kind == Kind::Word && !RESERVED.iter().any(|word| self.is(word))
    }

    /// The value of a number.
    pub fn value(&self) -> i64 {
        self.text.iter().fold(0, |value, digit| value * 10 + i64::from(digit - b'0'))
    }

    /// Equal as the tokens of guards are: numbers by value, all else by bytes.
    pub fn equals(&self, other: &Token) -> bool {
        if self.kind == Kind::Number && other.kind == Kind::Number {
            self.value() == other.value()
        } else {
            self.text == other.text
        }
    }
}

/// The bytes that are free between tokens.
pub fn is_blank(byte: u8) -> bool {
    matches!(byte, 0x09 | 0x0A | 0x0D | 0x20)
}

fn is_word_byte(byte: u8) -> bool {
    byte.is_ascii_alphanumeric() || byte == b'_'
}

/// All tokens of the file, or refusal 2 at the first byte that begins no token
/// or begins a word or number that is too long.
pub fn tokens(file: &[u8]) -> Result<Vec<Token>, Answer> {
    let mut found = Vec::new();
    let mut place = 0;
    while place < file.len() {
        if is_blank(file[place]) {
            place += 1;
            continue;
        }
        let (kind, length) = token_at(&file[place..]).ok_or(Answer::at(2, place))?;
        let text = file[place..place + length].to_vec();
        found.push(Token { kind, text, place });
        place += length;
    }
    Ok(found)
}

/// The kind and length of the longest token at the beginning of `rest`. A word
/// or number is measured whole before it is judged too long.
fn token_at(rest: &[u8]) -> Option<(Kind, usize)> {
    let run = |belongs: fn(u8) -> bool| rest.iter().take_while(|byte| belongs(**byte)).count();
    if rest[0].is_ascii_alphabetic() {
        let length = run(is_word_byte);
        (length <= LONGEST_WORD).then_some((Kind::Word, length))
    } else if rest[0].is_ascii_digit() {
        let length = run(|byte| byte.is_ascii_digit());
        (length <= LONGEST_NUMBER).then_some((Kind::Number, length))
    } else {
        let mark = MARKS.iter().find(|mark| rest.starts_with(mark.as_bytes()))?;
        Some((Kind::Mark, mark.len()))
    }
}
