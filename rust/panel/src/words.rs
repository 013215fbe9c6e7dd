//! Sentences for what the library answers. They say why; whether is the library's.
use crate::frames::{self, Frame};
use crate::sheet::{collapsed, is_printable, pair, shown, Sheet};
use damsonyet::{Entry, Fate, Machine, Notices, Outcome, Place, Point, Refusal};

/// A refusal in words: what it is, with its number; why; what to do; and the byte that is meant, of the file or of the trace.
#[derive(Clone, Debug, PartialEq, Eq)]
pub struct Refused {
    pub headline: String,
    pub reason: String,
    pub remedy: String,
    pub at: Option<usize>,
}

impl Refused {
    fn new(headline: impl Into<String>, reason: impl Into<String>, remedy: impl Into<String>, at: Option<usize>) -> Refused {
        Refused { headline: headline.into(), reason: reason.into(), remedy: remedy.into(), at }
    }
}

/// A number with commas: 8,192.
pub fn grouped(n: usize) -> String {
    let digits = n.to_string();
    let mut groups: Vec<String> = digits.as_bytes().rchunks(3).map(shown).collect();
    groups.reverse();
    groups.join(",")
}

/// Some of a thing: `1 frame`, `2 frames`.
pub fn some(n: usize, what: &str) -> String {
    format!("{} {what}{}", grouped(n), if n == 1 { "" } else { "s" })
}

/// How many entries a table has.
pub fn entries(n: usize) -> String {
    if n == 1 {
        "1 entry".into()
    } else {
        format!("{} entries", grouped(n))
    }
}

/// What is listed, joined by commas and `and`.
pub fn listed(items: &[String]) -> String {
    match items {
        [] => "none".into(),
        [one] => one.clone(),
        [first @ .., last] => format!("{} and {last}", first.join(", ")),
    }
}

/// `thread 02`, or `threads 00 and 02`.
pub fn threads(set: u16) -> String {
    in_order(&damsonyet::members(set))
}

/// The same of a line, in its order: `threads 05 and 00`.
pub fn in_order(line: &[u8]) -> String {
    let members: Vec<String> = line.iter().copied().map(pair).collect();
    format!("thread{} {}", if members.len() == 1 { "" } else { "s" }, listed(&members))
}

/// A region by name and number: `get (region 01)`.
pub fn region(sheet: &Sheet, r: u8) -> String {
    format!("{} (region {})", sheet.region_name(r.into()), pair(r))
}

/// A guard's text, cut where it is long.
pub fn guard(sheet: &Sheet, g: usize) -> String {
    const MOST: usize = 60;
    let text = sheet.guard_text(g);
    match text.char_indices().nth(MOST) {
        Some((cut, _)) => format!("{} ..", text[..cut].trim_end()),
        None => text,
    }
}

fn guard_of_region(sheet: &Sheet, r: u8) -> String {
    sheet.guard_of(r.into()).map_or_else(|| "its guard".into(), |g| guard(sheet, g))
}

/// What an entry of the table does, as a sentence.
pub fn entry(sheet: &Sheet, entry: &Entry) -> String {
    let after = sheet.region_name(entry.region.into());
    let number = pair(entry.guard);
    let text = guard(sheet, entry.guard.into());
    match (entry.unconditional, entry.broadcast) {
        (true, false) => format!("After {after}: signal the first waiter on guard {number} ({text}), without asking."),
        (true, true) => format!("After {after}: broadcast to all waiters on guard {number} ({text}), without asking."),
        (false, false) => format!("After {after}: if guard {number} ({text}) holds, signal its first waiter."),
        (false, true) => format!("After {after}: if guard {number} ({text}) holds, broadcast to all its waiters."),
    }
}

/// What a body has changed: `full becomes 1`.
pub fn changes(sheet: &Sheet, before: &[i16], after: &[i16]) -> String {
    let changed: Vec<String> = (0..sheet.outline.variables.len())
        .filter(|&k| before[k] != after[k])
        .map(|k| format!("{} becomes {}", sheet.variable_name(k), after[k]))
        .collect();
    if changed.is_empty() {
        "no value changes".into()
    } else {
        listed(&changed)
    }
}

/// Who a frame is of and what it does, as a sentence. Without a point behind it the frame is refused: only what it says is told.
pub fn frame(sheet: &Sheet, frame: &Frame, before: &Point, after: Option<&Point>) -> String {
    let Frame { thread, region, flag } = *frame;
    let who = format!("Thread {}", pair(thread));
    let name = sheet.region_name(region.into());
    let Some(after) = after else {
        let says = if flag { "the guard held and the body ran" } else { "the guard did not hold" };
        let at = if usize::from(region) < sheet.outline.regions.len() { name } else { format!("region {}", pair(region)) };
        return format!("{who} names {at} with flag {}, that is, {says}.", pair(flag.into()));
    };
    let text = guard_of_region(sheet, region);
    let place = before.places.get(usize::from(thread)).copied().unwrap_or(Place::Idle);
    let comes = match (place, flag) {
        (Place::Idle, _) => format!("{who} enters {name}"),
        (Place::Waiting(_), false) => format!("{who} rechecks at {name}"),
        (Place::Waiting(_), true) => format!("{who} wakes at {name}"),
        (Place::Due(_), _) => format!("{who} goes on to {name}"),
    };
    if !flag {
        let waits = if matches!(place, Place::Waiting(_)) { "it waits on" } else { "it waits" };
        return format!("{comes}: {text} does not hold, {waits}.");
    }
    let due = match after.places.get(usize::from(thread)) {
        Some(Place::Due(next)) => format!("; it is due at {}", sheet.region_name((*next).into())),
        _ => String::new(),
    };
    format!("{comes}: {text} holds, the body runs, {}{due}.", changes(sheet, &before.values, &after.values))
}

/// Where one machine has stopped and the other goes on: the frame that the table's machine alone refuses.
pub fn parts_at(plain: &Result<(), Refusal>, table: &Result<(), Refusal>) -> Option<usize> {
    match table {
        Err(refusal) if plain != table && matches!(refusal.number, 13 | 14) => Some(refusal.first),
        _ => None,
    }
}

/// Why the machines part at a frame, from the point before it.
pub fn parting(sheet: &Sheet, frame: &Frame, before: &Point) -> String {
    let others = before.table.map_or_else(Vec::new, |notices| on_guard(sheet, before, frame.region, notices.notified));
    let only = if others.is_empty() { String::new() } else { format!("; on this guard it has notified {} only", in_order(&others)) };
    format!(
        "Here the machines part: the table's machine stops, the plain one goes on. The table's machine has not notified thread {}{only}. \
         The recheck is in vain, as {} does not hold: the table spares it.",
        pair(frame.thread),
        guard_of_region(sheet, frame.region)
    )
}

/// Those of a set that wait on a region's guard, the earliest first.
fn on_guard(sheet: &Sheet, point: &Point, region: u8, set: u16) -> Vec<u8> {
    let line = sheet.guard_of(region.into()).map_or_else(Vec::new, |guard| point.line(&sheet.outline, guard));
    line.into_iter().filter(|t| set >> t & 1 == 1).collect()
}

/// What stands before a guard's line in a sentence of the page.
pub fn line_on(g: usize) -> String {
    format!(" In line on g{}: ", pair(g as u8))
}

/// A guard's line where a frame has changed it, which can only be the one on its own region's guard.
pub fn line_behind(sheet: &Sheet, frame: &Frame, before: &Point, after: Option<&Point>) -> String {
    let (Some(g), Some(after)) = (sheet.guard_of(frame.region.into()), after) else { return String::new() };
    let line = after.line(&sheet.outline, g);
    if line == before.line(&sheet.outline, g) {
        return String::new();
    }
    let line: Vec<String> = line.into_iter().map(pair).collect();
    format!("{}{}.", line_on(g), if line.is_empty() { "nobody".into() } else { line.join(", ") })
}

// ---- refusals of a file

/// Whether a byte may stand in a name.
pub fn is_word(byte: u8) -> bool {
    byte.is_ascii_alphanumeric() || byte == b'_'
}

fn is_blank(byte: u8) -> bool {
    matches!(byte, b'\t' | b'\n' | b'\r' | b' ')
}

const MARKS: [&[u8]; 8] = [b"..", b":=", b"==", b"!=", b"<=", b">=", b"&&", b"||"];

/// What stands at a byte, for quoting: a run of word bytes, two bytes that are a mark, or the byte.
pub fn standing(file: &[u8], at: usize) -> &[u8] {
    let rest = file.get(at..).unwrap_or_default();
    let run = rest.iter().take_while(|&&byte| is_word(byte)).count();
    let mark = MARKS.iter().find(|mark| rest.starts_with(mark)).map_or(1, |mark| mark.len());
    &rest[..if run > 0 { run } else { mark.min(rest.len()) }]
}

/// What stands before a byte, blanks left out, in the same way.
fn standing_before(file: &[u8], at: usize) -> &[u8] {
    let head = &file[..at.min(file.len())];
    let end = head.iter().rposition(|&byte| !is_blank(byte)).map_or(0, |last| last + 1);
    let head = &head[..end];
    let run = head.iter().rev().take_while(|&&byte| is_word(byte)).count();
    let mark = MARKS.iter().find(|mark| head.ends_with(mark)).map_or(1, |mark| mark.len());
    &head[end - if run > 0 { run } else { mark.min(end) }..]
}

/// The last three that stand before a byte, the nearest first.
fn three_before(file: &[u8], at: usize) -> [&[u8]; 3] {
    let mut end = at.min(file.len());
    std::array::from_fn(|_| {
        let found = standing_before(file, end);
        end = file[..end].iter().rposition(|&byte| !is_blank(byte)).map_or(0, |last| last + 1) - found.len();
        found
    })
}

/// How many brackets and braces are open behind a byte. Each is a token of its own, so that bytes can be counted.
fn open_behind(file: &[u8], at: usize) -> isize {
    let step = |byte: &u8| match byte {
        b'(' | b'{' => 1,
        b')' | b'}' => -1,
        _ => 0,
    };
    file.iter().take(at.saturating_add(1)).map(step).sum()
}

fn no_token(file: &[u8], at: usize) -> Refused {
    let byte = file.get(at).copied().unwrap_or(0);
    let run = standing(file, at).len();
    let put = |headline: &str, reason: String, remedy: &str| Refused::new(format!("2: {headline}"), reason, remedy, Some(at));
    if byte.is_ascii_alphabetic() {
        let reason = format!("This word has {} bytes; a name has at most 16.", grouped(run));
        return put("a word of more than 16 bytes", reason, "Shorten the name, here and wherever it is used.");
    }
    if byte.is_ascii_digit() {
        let digits = file[at..].iter().take_while(|byte| byte.is_ascii_digit()).count();
        let reason = format!("This number has {} digits; 3 are allowed, leading zeros counted.", grouped(digits));
        return put("a number of more than 3 digits", reason, "Write at most three digits; values lie within -128 to 127.");
    }
    let quoted = if is_printable(byte) { format!("'{}'", char::from(byte)) } else { format!("the byte {byte:02X} (hexadecimal)") };
    let reason = format!("No token begins with {quoted}.");
    let remedy = match byte {
        b'/' if file.get(at + 1) == Some(&b'/') || file.get(at + 1) == Some(&b'*') => "There are no comments: take it out.",
        b'#' => "There are no comments: take it out.",
        b'&' => "Write '&&' for and.",
        b'|' => "Write '||' for or.",
        b':' => "Write ':=' to assign.",
        b'.' => "Write '..' between the bounds of a range; there are whole numbers only.",
        b'_' => "A name begins with a letter.",
        b'%' => "Write 'mod' for the remainder: x mod 4.",
        b'*' | b'/' => "Sums have '+' and '-' only, and 'mod' for a remainder.",
        b',' => "Nothing is separated by commas: a variable and an assignment end with ';'.",
        b'[' | b']' => "There are no arrays: write a variable for each number.",
        0xEF if file[at..].starts_with(&[0xEF, 0xBB, 0xBF]) => "This is a byte order mark: save the file as plain ASCII, without one.",
        0xFE | 0xFF if at == 0 => "This looks like UTF-16: save the file as plain ASCII.",
        0x80.. => "This belongs to a character that is not ASCII (a dash, a quotation mark, a hard blank): write the file in plain ASCII.",
        0..=0x1F | 0x7F => "This is a control character: blanks are space, tab, line feed and carriage return. Is this a text file?",
        _ => "Take it out.",
    };
    put("a byte that begins no token", reason, remedy)
}

fn crowded(file: &[u8], at: usize) -> Refused {
    if matches!(file.get(at), Some(b'(' | b'{')) && open_behind(file, at) > 12 {
        return Refused::new(
            "3: a bracket or brace that opens the 13th level",
            "At most 12 of '(' and '{' may be open at once, and 12 are open here.",
            "Write one 'if' behind the other instead of inside it, or split the method.",
            Some(at),
        );
    }
    Refused::new(
        "3: a token past the 1,024th",
        "A file may have 1,024 tokens, and this is the next.",
        "Shorten the bodies and conditions, or split the monitor.",
        Some(at),
    )
}

const RESERVED: [&[u8]; 12] =
    [b"monitor", b"var", b"in", b"keep", b"try", b"method", b"waituntil", b"if", b"else", b"true", b"false", b"mod"];

/// The tokens of a file that the scanner passes, from a byte on, each with where it begins.
fn tokens(file: &[u8], from: usize) -> impl Iterator<Item = (usize, &[u8])> {
    let mut at = from;
    std::iter::from_fn(move || {
        at += file.get(at..)?.iter().take_while(|&&byte| is_blank(byte)).count();
        let digits = file[at..].iter().take_while(|byte| byte.is_ascii_digit()).count();
        let token = if digits > 0 { &file[at..at + digits] } else { standing(file, at) };
        at += token.len();
        (!token.is_empty()).then_some((at - token.len(), token))
    })
}

/// Whether `mod` stands behind the bracket that closes the one at a byte.
fn mod_behind_brackets(file: &[u8], at: usize) -> bool {
    let mut open = 0;
    let mut rest = tokens(file, at).map(|(_, token)| token).skip_while(|token| {
        open += isize::from(*token == b"(") - isize::from(*token == b")");
        open > 0
    });
    rest.next() == Some(b")") && rest.next() == Some(b"mod")
}

/// What a part of the file begins with, behind the last semicolon or brace before a byte.
fn part_begins(file: &[u8], at: usize) -> &[u8] {
    let head = &file[..at.min(file.len())];
    let from = head.iter().rposition(|byte| matches!(byte, b';' | b'{' | b'}')).map_or(0, |last| last + 1);
    let blanks = head[from..].iter().take_while(|&&byte| is_blank(byte)).count();
    standing(head, from + blanks)
}

/// What to do about a token that cannot stand where it does: by the token and what stands before it.
fn grammar_remedy(file: &[u8], at: usize) -> String {
    let token = standing(file, at);
    let [before, second, third] = three_before(file, at);
    let reserved = |word: &[u8]| RESERVED.contains(&word);
    let named = |word: &[u8]| word.first().is_some_and(u8::is_ascii_alphabetic) && !reserved(word);
    let is_name = named(token);
    // A name at which a statement may begin.
    let begins_statement = named(before) && matches!(second, b"{" | b"}" | b";");
    // What stands before is the divisor of a remainder.
    let is_divisor = second == b"mod" || second == b"-" && third == b"mod";
    let own_variable = "'mod' stands between two integers or variables, without brackets: give what is in brackets a variable of its own.";
    let head = &file[..at.min(file.len())];
    if head.iter().all(|&byte| is_blank(byte)) {
        return "A file begins with 'monitor', its name and '{'.".into();
    }
    if head.contains(&b'{') && head.contains(&b'}') && open_behind(head, head.len()) == 0 {
        return "The monitor ends with the '}' before: take out what follows, or a '}' too many before it.".into();
    }
    let lower = token.to_ascii_lowercase();
    let text = match (before, token) {
        (b"else", b"if") => "After 'else' comes '{': write else { if (..) { .. } }.",
        (b"else", _) => "After 'else' comes '{': write else { .. }.",
        (_, b":=" | b"==" | b"in" | b";") if second == b"var" => "A variable has a start value and a range: var x = 0 in 0..3;",
        (_, b"(") if second == b"method" => "A method takes no brackets: behind its name comes '{'.",
        (b"{", _) if third == b"method" && token != b"waituntil" => "A method has regions: write waituntil (guard) { .. }.",
        (b")", _) if is_name => "Behind the brackets comes a block: write { .. }.",
        (_, b"==") if begins_statement => "':=' assigns: write name := value;",
        (_, b"+" | b"-") if begins_statement => "':=' assigns: write name := name + 1;",
        (_, b"mod") if begins_statement => "':=' assigns: write name := name mod 4;",
        (_, b"mod") if is_divisor => "No second 'mod' stands right behind a remainder: give the first one a variable of its own.",
        (b"mod", b"(") | (b")", b"mod") => own_variable,
        (_, b"(") if mod_behind_brackets(file, at) => own_variable,
        (_, b")") if tokens(file, at).nth(1).is_some_and(|(_, token)| token == b"mod") => own_variable,
        (b"-", _) if is_name && second == b"mod" => "Behind 'mod' a '-' needs a number; by a divisor below 1 there is no remainder.",
        (b"try", _) => "Behind 'try' comes a condition and then ';': write try x < 2;",
        (_, b"try" | b"method") if part_begins(file, at) == b"try" => "A 'try' ends with ';', which is missing before.",
        (_, b"try") if part_begins(file, at) == b"keep" && before != b"keep" => "'keep' ends with ';', which is missing before.",
        (_, b"var" | b"keep") if before.last().is_some_and(u8::is_ascii_digit) => "A variable ends with ';', which is missing before.",
        (b"monitor" | b"var" | b"method", word) if reserved(word) => "This word is reserved: choose another name.",
        (_, b"=") => "A single '=' stands only in a 'var': ':=' assigns, '==' compares.",
        (_, b":=") => "':=' assigns, in a body and behind one name; to compare write '=='.",
        (b"=", _) => "'==' compares and ':=' assigns; a single '=' stands only in a 'var', before an integer.",
        (b"mod", _) => "Behind 'mod' comes its divisor, an integer or a variable. The word is reserved and no name.",
        (_, b"mod") => "'mod' stands between two integers or variables. The word is reserved and no name.",
        (b"-" | b"+" | b":=", b"(") => "Brackets go around conditions, not around sums.",
        (b"-", _) if is_name => "'-' before a name is nothing: write 0 - name.",
        (b"}", b";") => "A block has no ';' behind it: take it out.",
        (_, b";") => "Something is missing before this ';', or it is one too many.",
        (_, b"==" | b"!=" | b"<" | b"<=" | b">" | b">=") => {
            "A comparison has one sum on either side, without brackets, and comparisons do not chain: write a < b && b < c."
        }
        (_, b"true" | b"false") => "'true' and 'false' are conditions; values are numbers.",
        (_, b"var") => "The variables come first, then one 'keep', then the methods; a statement or a brace may be missing before.",
        (_, b"keep") => "There is one 'keep', between the variables (one at least) and the methods.",
        (_, b"try") => {
            "Tries stand right behind 'keep' and its ';', before the first method, each ended by ';'. The word is reserved and no name."
        }
        (_, b"method") => "Methods come behind the variables and one 'keep' with its ';'; a '}' may be missing before.",
        (_, b"waituntil") => "Regions stand in a method, one behind the other, not inside each other; a '}' may be missing before.",
        (_, b"if") => "An 'if' stands in a body only; a ';' or a '}' may be missing before, or a '}' be one too many.",
        (_, b"else") => "'else' stands directly behind the block of an 'if'.",
        _ if !reserved(token) && reserved(&lower) => "Reserved words are written in small letters.",
        _ if is_name && matches!(&lower[..], b"and" | b"or" | b"not") => "Write '&&' for and, '||' for or, '!' for not.",
        (_, b")") => "Something is missing before this ')'; brackets go around conditions, not around sums.",
        (_, b"}") => {
            "Something is missing before this '}', a ';' or a part: a method has a region, a monitor variables, 'keep' and a method."
        }
        (_, b"(") => "Brackets go around conditions, not around sums.",
        _ => "A ';', a bracket or an operator may be missing before it. docs/GUIDE.md has the grammar in section 1.",
    };
    text.into()
}

fn grammar(file: &[u8], at: usize) -> Refused {
    if at < file.len() {
        let token = shown(standing(file, at));
        return Refused::new(
            "4: by the grammar this token cannot stand here",
            format!("No file of the grammar goes on with '{token}' here."),
            grammar_remedy(file, at),
            Some(at),
        );
    }
    if file.iter().all(|&byte| is_blank(byte)) {
        return Refused::new(
            "4: the file is empty",
            if file.is_empty() { "It has no bytes." } else { "It has blanks only." },
            "A file begins with 'monitor', its name and '{'.",
            Some(at),
        );
    }
    let open = open_behind(file, at);
    let reason = match open {
        1.. => format!("What stands there is good, but the file ends early: {} still open.", open_parts(open)),
        _ => "What stands there is good, but the file ends early.".into(),
    };
    Refused::new("4: the file ends before its monitor does", reason, "Write the rest; often a '}' is missing.", Some(at))
}

fn open_parts(open: isize) -> String {
    if open == 1 {
        "a bracket or brace is".into()
    } else {
        format!("{open} brackets and braces are")
    }
}

fn past_limit(file: &[u8], at: usize) -> Refused {
    let put = |headline: &str, reason: &str, remedy: &str| Refused::new(headline, reason, remedy, Some(at));
    match file.get(at) {
        Some(b'v') => put(
            "5: a 7th variable",
            "There may be 6 variables.",
            "Put two into one number (0..3 for two of 0..1), or leave one out that follows from the others.",
        ),
        Some(b't') => put(
            "5: a 17th try",
            "There may be 16 tries.",
            "Leave one out; or join two with '&&', which are then chosen together or not at all.",
        ),
        Some(b'm') => put("5: a 9th method", "There may be 8 methods.", "Leave one out, or split the monitor."),
        _ => put("5: a 17th region", "There may be 16 regions in all methods together.", "Leave one out, or split the monitor."),
    }
}

fn name(file: &[u8], at: usize) -> Refused {
    let text = shown(standing(file, at));
    match standing_before(file, at) {
        b"var" => Refused::new(
            "6: a variable that is declared twice",
            format!("A variable '{text}' is declared before."),
            "Give one of them another name.",
            Some(at),
        ),
        b"method" => Refused::new(
            "6: a method that is declared twice",
            format!("A method '{text}' is declared before."),
            "Give one of them another name; a method may bear a variable's name, but not another method's.",
            Some(at),
        ),
        _ => Refused::new(
            "6: a variable that is not declared",
            format!("There is no variable '{text}'."),
            "Is it misspelt? Names are compared letter by letter, and case matters. Or declare it with 'var'.",
            Some(at),
        ),
    }
}

fn range(file: &[u8], at: usize) -> Refused {
    let rest = file.get(at..).unwrap_or_default();
    let end = rest.iter().position(|&byte| byte == b';').map_or(rest.len(), |end| end + 1);
    Refused::new(
        "7: a range or start value that is wrong, or more than 4,096 states",
        format!(
            "Of '{}' one of these is not so: the lowest value is not above the highest; both lie within -128 to 127; the start value lies \
             between them; and the sizes of the ranges up to this variable multiply to at most 4,096 states.",
            collapsed(&rest[..end])
        ),
        "Mend the range or the start value; if there are too many states, narrow a range.",
        Some(at),
    )
}

/// What stands behind a `mod`, as far as the text tells.
struct Divisor<'a> {
    /// An integer, or a variable's name in quotation marks.
    text: String,
    /// The lowest value it can have: of an integer its own, of a variable the lowest of its range.
    lowest: i32,
    /// A variable's declaration.
    declared: Option<&'a [u8]>,
}

/// The divisor behind the `mod` at a byte, of a file that the checks 1 to 7 pass.
fn divisor(file: &[u8], at: usize) -> Option<Divisor<'_>> {
    let integer = |behind: &mut dyn Iterator<Item = (usize, &[u8])>| -> Option<i32> {
        let (_, first) = behind.next()?;
        let (sign, digits) = if first == b"-" { (-1, behind.next()?.1) } else { (1, first) };
        std::str::from_utf8(digits).ok()?.parse::<i32>().ok().map(|number| sign * number)
    };
    if let Some(number) = integer(&mut tokens(file, at).skip(1)) {
        return Some(Divisor { text: number.to_string(), lowest: number, declared: None });
    }
    let (_, name) = tokens(file, at).nth(1)?;
    let all: Vec<(usize, &[u8])> = tokens(file, 0).collect();
    let (from, _) = all.windows(2).find(|two| two[0].1 == b"var" && two[1].1 == name)?[0];
    let lowest = integer(&mut tokens(file, from).skip_while(|(_, token)| *token != b"in").skip(1))?;
    let to = file[from..].iter().position(|&byte| byte == b';')? + from + 1;
    Some(Divisor { text: format!("'{}'", shown(name)), lowest, declared: Some(&file[from..to]) })
}

fn remainder(file: &[u8], at: usize) -> Refused {
    let whose = match part_begins(file, at) {
        b"keep" => "'keep'",
        b"try" => "this 'try', be it chosen or not,",
        _ => "this guard",
    };
    let asked = format!("{whose} must have a value in every state of the ranges, kept or not.");
    let (reason, remedy) = match divisor(file, at) {
        Some(Divisor { text, lowest, declared: Some(declared) }) => {
            let can_be = if lowest < 0 { format!("below 1, down to {lowest}") } else { lowest.to_string() };
            (
                format!("The divisor {text} can be {can_be} ('{}'). A remainder by it then has no value, and {asked}", collapsed(declared)),
                format!(
                    "Give {text} a range from 1 on, or divide by a number. A test beside the remainder does not help: '&&' and '||' always \
                     evaluate both sides."
                ),
            )
        }
        Some(Divisor { text, .. }) => {
            (format!("The divisor {text} is below 1. A remainder by it never has a value, and {asked}"), "Divide by 1 or more.".into())
        }
        None => (format!("Its divisor can be below 1, and {asked}"), "Divide by 1 or more.".into()),
    };
    Refused::new("15: a remainder that has no value in some state", reason, remedy, Some(at))
}

fn not_kept(file: &[u8], at: usize) -> Refused {
    let start = damsonyet::outline(file).ok().map(|(outline, _)| {
        let sheet = Sheet::new(file, outline);
        sheet.state_text(&sheet.start_values())
    });
    Refused::new(
        "8: the kept condition does not hold at the start values",
        match start {
            Some(text) => format!("At {text} the kept condition is false."),
            None => "The kept condition is false at the start values.".into(),
        },
        "Mend the start values or the condition.",
        Some(at),
    )
}

/// The first byte of a span that is no blank.
fn first_of(sheet: &Sheet, span: &std::ops::Range<usize>) -> usize {
    span.start + sheet.bytes(span).iter().position(|&byte| !is_blank(byte)).unwrap_or(0)
}

fn breaks(file: &[u8], r: usize, number: usize) -> Refused {
    let headline = "9: a body that leaves a range, lacks a remainder or breaks the kept condition";
    let Ok((outline, _)) = damsonyet::outline(file) else { return Refused::new(headline, "", "", None) };
    let sheet = Sheet::new(file, outline);
    let at = sheet.outline.regions.get(r).map(|region| first_of(&sheet, &region.body));
    let whose = region(&sheet, r as u8);
    let state = |number: usize| damsonyet::state_at(file, number).ok().flatten();
    let Some(from) = state(number) else { return Refused::new(headline, format!("The body of {whose}, from state {number}."), "", at) };
    let start = format!("From state {number} ({}) the body of {whose}, which begins here,", sheet.state_text(&from.values));
    // The chosen tries hold after every body without a fault: where the kept condition is broken, it is keep that is.
    let (tried, chosen) = match damsonyet::fates(file) {
        Ok(fates) => (!fates.is_empty(), fates.contains(&Fate::Chosen)),
        Err(_) => (false, false),
    };
    let broken =
        if chosen { "where the condition of 'keep' is false; the chosen tries hold there" } else { "where the kept condition is false" };
    let unreached = if tried {
        "If no run comes to the state it starts from, say in 'keep' why not, or add a 'try' that rules it out."
    } else {
        "If no run comes to the state it starts from, say in 'keep' why not."
    };
    match from.after.get(r).copied().flatten() {
        Some(Outcome::Ends(next)) => {
            let values = state(next.into()).map(|next| sheet.state_text(&next.values)).unwrap_or_default();
            Refused::new(
                "9: a body that breaks the kept condition",
                format!("{start} ends at state {next} ({values}), {broken}."),
                format!("Mend the body or the kept condition. {unreached}"),
                at,
            )
        }
        _ => {
            let divisors = low_divisors(&sheet, r);
            let closer = if sums_with_mod(&sheet, r) {
                "'mod' binds closer than '+' and '-': for the remainder of a sum give the sum a variable of its own. "
            } else {
                ""
            };
            if divisors.is_empty() {
                return Refused::new(
                    "9: a body that assigns outside a range",
                    format!("{start} assigns outside a range. Every assignment counts, also midway."),
                    format!("Widen the range, or test first and assign once. {closer}{unreached}"),
                    at,
                );
            }
            Refused::new(
                "9: a body that assigns outside a range or takes a remainder by less than 1",
                format!(
                    "{start} assigns outside a range, or takes a remainder by {}, which has no value where the divisor is below 1. Every \
                     assignment and every remainder on the way counts, on both sides of '&&' and '||'.",
                    divisors.join(" or ")
                ),
                format!(
                    "Widen the range, or test first and assign once; test a divisor in an 'if' around the remainder. {closer}{unreached}"
                ),
                at,
            )
        }
    }
}

/// The tokens of a region's body, each with where it begins.
fn body_tokens<'a>(sheet: &Sheet<'a>, r: usize) -> Vec<(usize, &'a [u8])> {
    let span = sheet.outline.regions.get(r).map_or(0..0, |region| region.body.clone());
    tokens(sheet.file, span.start).take_while(|(at, _)| *at < span.end).collect()
}

/// Whether a remainder is joined to something before it, as in x + 1 mod 8.
fn sums_with_mod(sheet: &Sheet, r: usize) -> bool {
    let is_atom = |token: &[u8]| token.first().is_some_and(|&byte| is_word(byte));
    body_tokens(sheet, r).windows(4).any(|four| matches!(four[1].1, b"+" | b"-") && is_atom(four[0].1) && four[3].1 == b"mod")
}

/// The divisors in a region's body that can be below 1, each once, as the text has them.
fn low_divisors(sheet: &Sheet, r: usize) -> Vec<String> {
    let found = body_tokens(sheet, r).into_iter().filter(|(_, token)| *token == b"mod").filter_map(|(at, _)| divisor(sheet.file, at));
    let mut low: Vec<String> = found.filter(|divisor| divisor.lowest < 1).map(|divisor| divisor.text).collect();
    low.sort();
    low.dedup();
    low
}

/// A file's refusal, 1 to 9 or 15, in words.
pub fn refusal(file: &[u8], refusal: &Refusal) -> Refused {
    let at = refusal.first;
    match refusal.number {
        1 => Refused::new(
            "1: the file is too long",
            "It has more than 8,192 bytes; nothing else is looked at.",
            "Take out blanks: they are free between tokens, but count as bytes.",
            None,
        ),
        2 => no_token(file, at),
        3 => crowded(file, at),
        4 => grammar(file, at),
        5 => past_limit(file, at),
        6 => name(file, at),
        7 => range(file, at),
        8 => not_kept(file, at),
        9 => breaks(file, at, refusal.second),
        15 => remainder(file, at),
        number => Refused::new(format!("{number}: {refusal}"), "", "", None),
    }
}

/// The refusal of a load's count of threads, 16, in words.
pub fn threads_refused(threads: usize) -> Refused {
    let asked = if threads == 0 { "No thread is asked for".into() } else { format!("{} are asked for", some(threads, "thread")) };
    Refused::new(
        "16: the count of threads is not 1 to 16",
        format!("{asked}. A trace has the threads 00 to 0F. This is asked before the file is looked at."),
        "Ask for 1 to 16 threads.",
        None,
    )
}

// ---- refusals of a run

fn start_refused(sheet: &Sheet, start: usize) -> Refused {
    let states = sheet.outline.states;
    let remedy = format!("The file's own start is state {} ({}).", sheet.outline.start, sheet.state_text(&sheet.start_values()));
    let reason = match damsonyet::state_at(sheet.file, start) {
        Ok(Some(state)) => {
            let tries = damsonyet::fates(sheet.file).is_ok_and(|fates| fates.contains(&Fate::Chosen));
            let kept = if tries { "the kept condition (keep and the chosen tries)" } else { "the kept condition" };
            format!("At state {start} ({}) {kept} is false.", sheet.state_text(&state.values))
        }
        _ => format!("There is no state {start}: the states are 0 to {}.", states.saturating_sub(1)),
    };
    let headline = if start < states { "11: the start state is not kept" } else { "11: no such start state" };
    Refused::new(headline, reason, remedy, None)
}

/// Why a line is no frame. The line's number is the library's; here it is only looked at.
fn line_refused(trace: &[u8], k: usize) -> Refused {
    let (line, ended) = frames::line(trace, k);
    let is_digit = |byte: &u8| matches!(byte, b'0'..=b'9' | b'A'..=b'F');
    let bad = line.iter().position(|byte| !is_digit(byte));
    let (why, remedy) = if !ended && line.len() == 6 && bad.is_none() {
        ("it is not ended by a line feed".into(), "End every line with a line feed, the last one too.")
    } else if line.is_empty() {
        ("it is empty".into(), "Take out the empty line.")
    } else if ended && line.last() == Some(&b'\r') {
        ("a carriage return (0D) stands before its line feed".into(), "Save the trace with line feeds only.")
    } else if line.contains(&b'\r') {
        ("it has a carriage return (0D) where a line feed must be".into(), "Save the trace with line feeds only.")
    } else if let Some(bad) = bad {
        let byte = line[bad];
        match byte {
            b'a'..=b'f' => (format!("'{}' is a small letter", char::from(byte)), "Write the digits A-F in capitals."),
            b' ' | b'\t' => ("there is a blank in it".into(), "Take out the blanks."),
            _ if is_printable(byte) => (format!("'{}' is no digit", char::from(byte)), "Digits are 0-9 and A-F."),
            _ => (format!("the byte {byte:02X} (hexadecimal) is no digit"), "Digits are 0-9 and A-F. Is this a text file?"),
        }
    } else if line.len() != 6 {
        (format!("it has {}, not six", some(line.len(), "digit")), "A frame is thread, region and flag, two digits each.")
    } else if line[0] != b'0' {
        (format!("there is no thread {}", shown(&line[..2])), "The threads are 00 to 0F.")
    } else {
        (format!("{} is no flag", shown(&line[4..])), "The flag is 01 where the body ran, 00 where the guard did not hold.")
    };
    Refused::new(
        "12: a line that is no frame",
        format!("Line {k} of the trace, counted from 0, is no frame: {why}. Nothing is run."),
        remedy,
        Some(frames::line_start(k)),
    )
}

/// Which flag a frame at a region has at a point.
fn true_flag(sheet: &Sheet, point: &Point, r: u8) -> bool {
    sheet.guard_of(r.into()).is_some_and(|g| point.guards >> g & 1 == 1)
}

/// 13, in the order of docs/REFERENCE.md, 9.10 to 9.13; a region that the file lacks is told first.
fn not_allowed(sheet: &Sheet, frame: &Frame, before: &Point) -> (String, String) {
    let Frame { thread, region: r, .. } = *frame;
    let who = format!("thread {}", pair(thread));
    let regions = sheet.outline.regions.len();
    if usize::from(r) >= regions {
        let last = pair(regions.saturating_sub(1) as u8);
        return (format!("the file has no region {}", pair(r)), format!("Its regions are 00 to {last}, counted on across methods."));
    }
    let due = (0..16u8).find_map(|t| match before.places[usize::from(t)] {
        Place::Due(at) => Some((t, at)),
        _ => None,
    });
    if let Some((t, at)) = due {
        let next = Frame { thread: t, region: at, flag: true_flag(sheet, before, at) }.text();
        let remedy = format!("The next frame must be {next}.");
        if t != thread {
            return (format!("thread {} is due at {} and must send the next frame", pair(t), region(sheet, at)), remedy);
        }
        return (format!("{who} is due at {} and may name no other region", region(sheet, at)), remedy);
    }
    match before.places.get(usize::from(thread)) {
        Some(Place::Waiting(at)) => (
            format!("{who} waits at {} and may name no other region", region(sheet, *at)),
            "A waiter stays until its body has run: let another thread send this frame.".into(),
        ),
        _ => {
            let first = sheet.outline.method_of(r.into()).map_or(0, |j| sheet.outline.methods[j].regions.start);
            (
                format!("{who} is idle, and {} is not the first region of its method", region(sheet, r)),
                format!("An idle thread begins at a method's first region, here {}.", region(sheet, first as u8)),
            )
        }
    }
}

/// 14, by the rules of docs/REFERENCE.md, 9.15 to 9.19, and a machine's notices.
fn not_taken(sheet: &Sheet, frame: &Frame, before: &Point, machine: Machine) -> (String, String) {
    let Frame { thread, region: r, flag } = *frame;
    let text = guard_of_region(sheet, r);
    let notices = match machine {
        Machine::Plain => before.plain,
        Machine::Table => before.table.unwrap_or(Notices { notified: 0, told: 0 }),
    };
    let is_in = |set: u16| set >> (thread & 15) & 1 == 1;
    if flag != true_flag(sheet, before, r) {
        let says = if flag { "holds, and it does not" } else { "does not hold, and it does" };
        let place = before.places.get(usize::from(thread));
        let remedy = match place {
            Some(Place::Idle) => "mend the flag, or let another frame change the values first.",
            Some(Place::Waiting(_)) if !is_in(notices.notified) => {
                "mend the flag. And the thread waits and is not notified: leave this frame out until it is."
            }
            _ => "mend the flag.",
        };
        return (
            format!("flag {} says that {text} {says}", pair(flag.into())),
            format!("The flag must be the guard's truth at that moment: {remedy}"),
        );
    }
    // Who stands ahead of it in the line on its guard, and who of these is notified.
    let earlier = ahead(sheet, before, frame);
    let told: Vec<u8> = earlier.iter().copied().filter(|t| notices.notified >> t & 1 == 1).collect();
    if !is_in(notices.notified) {
        if machine == Machine::Table && is_in(before.plain.notified) && !flag {
            return (
                format!("thread {} waits and is not notified; the plain machine has notified it", pair(thread)),
                "Nothing is wrong: the recheck would be in vain, and the table spares it. Leave this frame out, and both go on.".into(),
            );
        }
        // The guard holds, so the first waiter on it is notified (demand 3): that one goes on, and not this.
        if let (true, Some(first)) = (flag, told.first()) {
            return (
                format!(
                    "thread {} waits and is not notified; thread {} began to wait before it on this guard and is notified",
                    pair(thread),
                    pair(*first)
                ),
                goes_first(&earlier),
            );
        }
        return (
            format!("thread {} waits and is not notified", pair(thread)),
            "A waiter looks again only with a notice: leave this frame out, or let a body make its guard true first.".into(),
        );
    }
    if told.is_empty() {
        return ("the machine does not allow the event".into(), "docs/GUIDE.md has the rules in section 3.".into());
    }
    let are = if told.len() == 1 { "is" } else { "are" };
    (format!("{} began to wait before thread {} on this guard and {are} notified", in_order(&told), pair(thread)), goes_first(&earlier))
}

/// Those who began to wait on the frame's guard before its thread, the earliest first.
fn ahead(sheet: &Sheet, before: &Point, frame: &Frame) -> Vec<u8> {
    let mut line = on_guard(sheet, before, frame.region, u16::MAX);
    line.truncate(line.iter().position(|&t| t == frame.thread).unwrap_or(0));
    line
}

/// Who must run before a waiter may.
fn goes_first(earlier: &[u8]) -> String {
    let order = if earlier.len() > 1 { ", in this order" } else { "" };
    format!("The earliest to begin waiting on a guard goes first: let {} run before{order}.", in_order(earlier))
}

/// A run's refusal, 11 to 14, on one machine, in words. The points are those of the run; of 11 and 12 there are none.
pub fn run_refusal(sheet: &Sheet, trace: &[u8], start: usize, points: &[Point], machine: Machine, refusal: &Refusal) -> Refused {
    let k = refusal.first;
    let frame = || frames::frames(trace.get(frames::line_start(k)..).unwrap_or_default().get(..frames::LINE).unwrap_or_default()).pop();
    match refusal.number {
        11 => start_refused(sheet, start),
        12 => line_refused(trace, k),
        number @ (13 | 14) => {
            let at = Some(frames::line_start(k));
            let what =
                if number == 13 { "13: the thread may not be at that region now" } else { "14: the machine does not allow the event" };
            let headline = format!("{what}, frame {k}");
            let (Some(frame), Some(before)) = (frame(), points.get(k)) else { return Refused::new(headline, "", "", at) };
            let (reason, remedy) =
                if number == 13 { not_allowed(sheet, &frame, before) } else { not_taken(sheet, &frame, before, machine) };
            Refused::new(headline, sentence(&reason), remedy, at)
        }
        number => Refused::new(format!("{number}: {refusal}"), "", "", None),
    }
}

/// A clause as a sentence.
fn sentence(clause: &str) -> String {
    let mut letters = clause.chars();
    letters.next().map_or_else(String::new, |first| format!("{}{}.", first.to_ascii_uppercase(), letters.as_str()))
}
