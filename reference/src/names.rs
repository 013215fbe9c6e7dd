//! Refusal 6: names declared twice among their kind, or used and not declared.

use crate::answer::Answer;
use crate::tokens::Token;

/// One pass in file order. In a file of the grammar the word before a name tells
/// what the name does: it names the monitor, declares a variable, declares a
/// method, or else uses a variable (an assignment's left side included).
pub fn names(tokens: &[Token]) -> Result<(), Answer> {
    let mut variables: Vec<&[u8]> = Vec::new();
    let mut methods: Vec<&[u8]> = Vec::new();
    for (index, token) in tokens.iter().enumerate() {
        if !token.is_name() {
            continue;
        }
        let name = token.text.as_slice();
        let before = &tokens[index - 1];
        let good = if before.is("monitor") {
            true
        } else if before.is("var") {
            declare(&mut variables, name)
        } else if before.is("method") {
            declare(&mut methods, name)
        } else {
            variables.contains(&name)
        };
        if !good {
            return Err(Answer::at(6, token.place));
        }
    }
    Ok(())
}

/// Adds a name to those of its kind; false if it stood there already.
fn declare<'a>(declared: &mut Vec<&'a [u8]>, name: &'a [u8]) -> bool {
    let is_new = !declared.contains(&name);
    declared.push(name);
    is_new
}
