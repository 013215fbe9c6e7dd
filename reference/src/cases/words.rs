//! Tokens on their way to a file: their spelling and the blanks between them.

use super::draws::Draws;
use super::Size;
use crate::tokens::{LONGEST_NUMBER, MARKS, RESERVED};

/// The tokens of a file or a part of it, as they are spelled.
pub type Words = Vec<String>;

/// The tokens of a text that has blanks between them.
pub fn words(text: &str) -> Words {
    text.split_whitespace().map(String::from).collect()
}

/// An integer: `-` if below 0, and a number now and then spelled with zeros.
pub fn integer(draws: &mut Draws, value: i64) -> Words {
    let number = respelled(draws, &value.abs().to_string(), 10);
    if value < 0 {
        vec!["-".into(), number]
    } else {
        vec![number]
    }
}

/// The same number, so many times in a hundred with zeros before it.
fn respelled(draws: &mut Draws, number: &str, percent: usize) -> String {
    let zeros = LONGEST_NUMBER.saturating_sub(number.len());
    if zeros > 0 && draws.chance(percent) {
        "0".repeat(draws.count(1, zeros)) + number
    } else {
        number.to_string()
    }
}

/// The same tokens with numbers of the same value: as a guard, the same one.
pub fn respelled_words(draws: &mut Draws, tokens: &Words) -> Words {
    let mut same = Vec::new();
    for token in tokens {
        same.push(match token.parse::<u32>() {
            Ok(number) => respelled(draws, &number.to_string(), 50),
            Err(_) => token.clone(),
        });
    }
    same
}

/// Any token that a file may hold.
pub fn any_token(draws: &mut Draws) -> String {
    match draws.below(10) {
        0 | 1 => draws.pick(&["x", "y", "a", "b", "m", "True", "Monitor", "x_1", "Z9"]).into(),
        2 => draws.pick(&["0", "1", "2", "00", "007", "127", "128", "999"]).into(),
        3..=5 => draws.pick(&RESERVED).into(),
        _ => draws.pick(&MARKS).into(),
    }
}

/// How a file is laid out.
#[derive(Clone, Copy)]
pub enum Layout {
    /// A blank only where two tokens would else be read as another.
    Tight,
    /// One blank.
    Single,
    /// Any blanks, or none where none is needed.
    Loose,
}

/// Small files have few bytes to spare for blanks.
fn any_layout(draws: &mut Draws, size: Size) -> Layout {
    if size.is_small {
        draws.pick(&[Layout::Tight, Layout::Tight, Layout::Single])
    } else {
        draws.pick(&[Layout::Tight, Layout::Single, Layout::Single, Layout::Loose])
    }
}

/// The bytes of a file with these tokens.
pub fn laid_out(draws: &mut Draws, tokens: &Words, layout: Layout) -> Vec<u8> {
    let mut file: Vec<u8> = Vec::new();
    for (index, token) in tokens.iter().enumerate() {
        let needed = index > 0 && runs_together(&tokens[index - 1], token);
        match layout {
            Layout::Tight => file.extend(needed.then_some(b' ')),
            Layout::Single => file.extend((index > 0).then_some(b' ')),
            Layout::Loose => {
                let least = usize::from(needed);
                let count = if draws.chance(40) { least } else { draws.count(least, 3) };
                file.extend(blanks(draws, count));
            }
        }
        file.extend(token.bytes());
    }
    let behind = if draws.chance(50) { 0 } else { draws.count(0, 2) };
    file.extend(blanks(draws, behind));
    file
}

/// The bytes of a file with these tokens in any layout that fits the size, or else
/// in the tightest.
pub fn laid_out_to_fit(draws: &mut Draws, tokens: &Words, size: Size) -> Vec<u8> {
    let layout = any_layout(draws, size);
    let file = laid_out(draws, tokens, layout);
    if file.len() <= size.bytes {
        file
    } else {
        laid_out(draws, tokens, Layout::Tight)
    }
}

pub fn blanks(draws: &mut Draws, count: usize) -> Vec<u8> {
    (0..count).map(|_| draws.pick(b"\t\n\r   ")).collect()
}

/// Whether the two tokens would be read otherwise without a blank between.
fn runs_together(left: &str, right: &str) -> bool {
    let (Some(first), Some(next)) = (left.bytes().next(), right.bytes().next()) else {
        return false;
    };
    if first.is_ascii_alphabetic() {
        next.is_ascii_alphanumeric()
    } else if first.is_ascii_digit() {
        next.is_ascii_digit()
    } else {
        MARKS.contains(&format!("{left}{}", next as char).as_str())
    }
}
