//! The tries of a file and what becomes of each, with the values that the library gives.
use crate::sheet::Sheet;
use crate::words;
use damsonyet::{Fate, Outcome};

/// A try: its condition and its fate.
pub struct Tried {
    pub text: String,
    pub fate: Fate,
    /// Of a broken one, what breaks it.
    pub step: Option<Step>,
}

/// A body that makes a try false: the region, and the states before and after it, each by its number and values.
pub struct Step {
    pub region: u8,
    pub before: (usize, Vec<i16>),
    pub after: (usize, Vec<i16>),
}

impl Step {
    /// The step from a state. The state is kept and the body ends, so that the library tells where.
    fn of(file: &[u8], region: u8, from: usize) -> Option<Step> {
        let state = |number: usize| damsonyet::state_at(file, number).ok().flatten();
        let before = state(from)?;
        let Some(Outcome::Ends(to)) = before.after.get(usize::from(region)).copied().flatten() else { return None };
        let after = state(to.into())?;
        Some(Step { region, before: (from, before.values), after: (to.into(), after.values) })
    }
}

/// All tries of a file, where their fates are told: of one that is accepted or refused with 9.
pub fn tries(sheet: &Sheet) -> Option<Vec<Tried>> {
    let fates = damsonyet::fates(sheet.file).ok()?;
    let tried = |(k, fate): (usize, Fate)| {
        let step = match fate {
            Fate::Broken { region, state, .. } => Step::of(sheet.file, region, state.into()),
            _ => None,
        };
        Tried { text: sheet.try_text(k), fate, step }
    };
    Some(fates.into_iter().enumerate().map(tried).collect())
}

/// The numbers of those with such a fate.
fn those(tries: &[Tried], is: impl Fn(&Fate) -> bool) -> Vec<usize> {
    (0..tries.len()).filter(|&k| is(&tries[k].fate)).collect()
}

/// The numbers of the chosen ones.
pub fn chosen(tries: &[Tried]) -> Vec<usize> {
    those(tries, |fate| *fate == Fate::Chosen)
}

/// Numbers of tries: `02`, `02 and 05`.
fn listed(numbers: &[usize]) -> String {
    words::listed(&numbers.iter().map(|k| format!("{k:02X}")).collect::<Vec<_>>())
}

/// How many are chosen: `2 of 5 chosen`.
pub fn count(tries: &[Tried]) -> String {
    match (chosen(tries).len(), tries.len()) {
        (0, all) => format!("none of {all} chosen"),
        (n, all) if n == all && n > 1 => format!("all {all} chosen"),
        (n, all) => format!("{n} of {all} chosen"),
    }
}

/// The same, and which.
pub fn summary(tries: &[Tried]) -> String {
    let chosen = chosen(tries);
    if chosen.is_empty() {
        format!("tries: {}", count(tries))
    } else {
        format!("tries: {} ({})", count(tries), listed(&chosen))
    }
}

/// What the kept condition then is.
pub fn kept(tries: &[Tried]) -> &'static str {
    if chosen(tries).is_empty() {
        "the kept condition is keep alone"
    } else {
        "the kept condition is keep and the chosen ones"
    }
}

/// A fate in a word.
pub fn word(fate: &Fate) -> &'static str {
    match fate {
        Fate::Chosen => "chosen",
        Fate::FalseAtStart => "false",
        Fate::Broken { .. } => "broken",
    }
}

/// Who breaks a try, and which tries fell in the pass before: `by show (region 04), once try 02 had fallen`.
pub fn breaker(sheet: &Sheet, tries: &[Tried], pass: u8, region: u8) -> String {
    let before = those(tries, |fate| matches!(fate, Fate::Broken { pass: fell, .. } if fell + 1 == pass));
    let once = match before.len() {
        0 => String::new(),
        1 => format!(", once try {} had fallen", listed(&before)),
        _ => format!(", once tries {} had fallen", listed(&before)),
    };
    format!("by {}{once}", words::region(sheet, region))
}

/// Why a try is not chosen, as a sentence; nothing of a chosen one.
pub fn why(sheet: &Sheet, tries: &[Tried], k: usize) -> Option<String> {
    match tries[k].fate {
        Fate::Chosen => None,
        Fate::FalseAtStart => Some(format!("False at the start values: {}.", sheet.state_text(&sheet.start_values()))),
        Fate::Broken { pass, region, state } => {
            let by = format!("Broken in pass {pass} {}: from state {state}", breaker(sheet, tries, pass, region));
            Some(match &tries[k].step {
                Some(Step { before: (_, before), after: (_, after), .. }) => {
                    format!("{by} ({}) {}.", sheet.state_text(before), words::changes(sheet, before, after))
                }
                None => format!("{by}."),
            })
        }
    }
}

/// What all broken ones have in common to say: why there are passes, and what may save a try. Nothing where none is broken.
pub fn hints(tries: &[Tried]) -> Vec<&'static str> {
    let broken = those(tries, |fate| matches!(fate, Fate::Broken { .. }));
    let later = those(tries, |fate| matches!(fate, Fate::Broken { pass: 2.., .. }));
    let mut hints = Vec::new();
    if !later.is_empty() {
        hints.push("A try that has fallen rules out no states any more, so others may fall in the next pass.");
    }
    if !broken.is_empty() {
        hints.push("If no run comes to the state that a try is broken from, a further try that rules that state out may save it.");
    }
    hints
}
