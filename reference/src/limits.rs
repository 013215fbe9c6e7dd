//! The refusals that count: 1 (bytes), 3 (tokens and depth), 5 (declarations).

use crate::answer::Answer;
use crate::tokens::Token;

pub const MOST_BYTES: usize = 8192;
pub const MOST_TOKENS: usize = 1024;
pub const MOST_DEPTH: i64 = 12;
pub const MOST_VARIABLES: usize = 6;
pub const MOST_TRIES: usize = 16;
pub const MOST_METHODS: usize = 8;
pub const MOST_REGIONS: usize = 16;

/// Refusal 1: the file is over 8,192 bytes.
pub fn bytes(file: &[u8]) -> Result<(), Answer> {
    if file.len() > MOST_BYTES {
        return Err(Answer::at(1, 0));
    }
    Ok(())
}

/// Refusal 3: the first token past the 1,024th, or opening too deep. Both kinds
/// of bracket are counted together, and the count may fall below 0: grammar is
/// not asked yet.
pub fn tokens_and_depth(tokens: &[Token]) -> Result<(), Answer> {
    let mut opened_less_closed = 0;
    for (index, token) in tokens.iter().enumerate() {
        let opens = token.is("(") || token.is("{");
        let closes = token.is(")") || token.is("}");
        if opens {
            opened_less_closed += 1;
        }
        if closes {
            opened_less_closed -= 1;
        }
        if index >= MOST_TOKENS || (opens && opened_less_closed > MOST_DEPTH) {
            return Err(Answer::at(3, token.place));
        }
    }
    Ok(())
}

/// Refusal 5: the first `var`, `try`, `method` or `waituntil` past its limit, whichever
/// comes first in the file.
pub fn declarations(tokens: &[Token]) -> Result<(), Answer> {
    let limits = [
        ("var", MOST_VARIABLES),
        ("try", MOST_TRIES),
        ("method", MOST_METHODS),
        ("waituntil", MOST_REGIONS),
    ];
    let mut counts = [0; 4];
    for token in tokens {
        for (count, (word, most)) in counts.iter_mut().zip(limits) {
            if token.is(word) {
                *count += 1;
                if *count > most {
                    return Err(Answer::at(5, token.place));
                }
            }
        }
    }
    Ok(())
}
