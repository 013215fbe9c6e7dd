//! Arguments, in the manner of git and cargo: options anywhere, `--name value` and `--name=value`, `--` ends them.
use crate::input::name_text;
use std::ffi::{OsStr, OsString};
use std::os::unix::ffi::{OsStrExt, OsStringExt};

/// An option of a command: its long name, its letter if it has one, and whether a value follows.
#[derive(Clone, Copy)]
pub struct Opt {
    pub name: &'static str,
    pub letter: Option<u8>,
    pub value: bool,
}

/// What was given to a command.
#[derive(Default, Debug)]
pub struct Given {
    pub positional: Vec<OsString>,
    options: Vec<(&'static str, Option<OsString>)>,
}

impl Given {
    pub fn has(&self, name: &str) -> bool {
        self.options.iter().any(|(given, _)| *given == name)
    }

    /// The value of an option; of one that is given twice the last.
    pub fn value(&self, name: &str) -> Option<&OsStr> {
        self.options.iter().rev().find(|(given, _)| *given == name).and_then(|(_, value)| value.as_deref())
    }
}

/// How many letters must be changed, put in or taken out to come from one word to another.
fn distance(a: &str, b: &str) -> usize {
    let b: Vec<char> = b.chars().collect();
    let mut row: Vec<usize> = (0..=b.len()).collect();
    for (i, x) in a.chars().enumerate() {
        let mut diagonal = std::mem::replace(&mut row[0], i + 1);
        for (j, y) in b.iter().enumerate() {
            let changed = diagonal + usize::from(x != *y);
            diagonal = row[j + 1];
            row[j + 1] = changed.min(row[j] + 1).min(diagonal + 1);
        }
    }
    row[b.len()]
}

/// The word of a list that is nearest to one, if any is near.
pub fn nearest<'a>(word: &str, among: impl IntoIterator<Item = &'a str>) -> Option<&'a str> {
    if word.len() > 40 {
        return None;
    }
    let begins = |known: &str| word.len() > 1 && known.starts_with(word);
    let far = |known: &str| if begins(known) { 1 } else { distance(word, known) };
    among.into_iter().map(|known| (far(known), known)).filter(|(far, known)| *far <= known.len().div_ceil(3)).min().map(|(_, known)| known)
}

fn unknown(given: &str, name: &str, options: &[Opt]) -> String {
    let hint =
        nearest(name, options.iter().map(|option| option.name)).map_or_else(String::new, |near| format!("; did you mean '--{near}'?"));
    format!("unknown option '{given}'{hint}")
}

/// An argument as a shell takes it again: in quotation marks where it needs them, and not as an option.
pub fn quoted(argument: &OsStr) -> String {
    let text = name_text(argument);
    let text = if text.starts_with('-') && text != "-" { format!("./{text}") } else { text };
    let plain = |c: char| c.is_alphanumeric() || "-_./,:+@%".contains(c);
    if !text.is_empty() && text.chars().all(plain) {
        text
    } else {
        format!("'{}'", text.replace('\'', "'\\''"))
    }
}

/// Takes arguments apart. What is wrong with them is told in words.
pub fn parse(arguments: &[OsString], options: &[Opt]) -> Result<Given, String> {
    let mut given = Given::default();
    let mut rest = arguments.iter();
    while let Some(argument) = rest.next() {
        let bytes = argument.as_bytes();
        if bytes == b"--" {
            given.positional.extend(rest.cloned());
            break;
        }
        let (option, shown, value) = if let Some(long) = bytes.strip_prefix(b"--") {
            let (name, value) = match long.iter().position(|&byte| byte == b'=') {
                Some(at) => (&long[..at], Some(OsString::from_vec(long[at + 1..].to_vec()))),
                None => (long, None),
            };
            let shown = format!("--{}", name_text(OsStr::from_bytes(name)));
            let found = options.iter().find(|option| option.name.as_bytes() == name);
            (found.ok_or_else(|| unknown(&shown, &shown[2..], options))?, shown, value)
        } else if bytes.len() > 1 && bytes[0] == b'-' {
            let found = options.iter().find(|option| option.letter == Some(bytes[1]));
            let option = found.filter(|option| option.value || bytes.len() == 2);
            let shown = name_text(argument);
            let option = option.ok_or_else(|| unknown(&shown, shown.trim_start_matches('-'), options))?;
            (option, format!("-{}", char::from(bytes[1])), (bytes.len() > 2).then(|| OsString::from_vec(bytes[2..].to_vec())))
        } else {
            given.positional.push(argument.clone());
            continue;
        };
        let value = match (option.value, value) {
            (true, Some(value)) => Some(value),
            (true, None) => Some(rest.next().cloned().ok_or_else(|| format!("option '{shown}' needs a value"))?),
            (false, Some(_)) => return Err(format!("option '{shown}' takes no value")),
            (false, None) => None,
        };
        given.options.push((option.name, value));
    }
    Ok(given)
}
