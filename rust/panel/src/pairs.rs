//! The pairs of region and guard that are touched. How many there are is the library's; which they are is read off the names in the text.
use crate::sheet::Sheet;
use crate::words;
use damsonyet::{Outline, Table};

/// How many pairs are touched: `22 of 81 touched`.
pub fn count(outline: &Outline, table: &Table) -> String {
    match (usize::from(table.pairs), outline.regions.len() * outline.guards) {
        (0, all) => format!("none of {all} touched"),
        (n, all) if n == all && n > 1 => format!("all {all} touched"),
        (n, all) => format!("{n} of {all} touched"),
    }
}

/// What the count says of pairs that are not touched; nothing where all are.
pub fn others(outline: &Outline, table: &Table) -> Option<&'static str> {
    match usize::from(table.pairs) {
        0 => Some("so none has an entry, by the text alone"),
        n if n < outline.regions.len() * outline.guards => Some("the others have no entry, by the text alone"),
        _ => None,
    }
}

/// Both in a line.
pub fn summary(outline: &Outline, table: &Table) -> String {
    let others = others(outline, table).map_or_else(String::new, |others| format!(" ({others})"));
    format!("pairs: {}{others}", count(outline, table))
}

/// What touches: the variables that each region's body assigns, and those that each guard names, as bits.
pub struct Touched {
    assigned: Vec<u8>,
    named: Vec<u8>,
}

impl Touched {
    /// Of an accepted file and its table. None where the names in the text do not give as many pairs as the library has counted.
    pub fn of(sheet: &Sheet, table: &Table) -> Option<Touched> {
        let outline = &sheet.outline;
        let variables: Vec<&[u8]> = outline.variables.iter().map(|variable| sheet.bytes(&variable.name)).collect();
        let set = |names: Vec<&[u8]>| (0..variables.len()).filter(|&k| names.contains(&variables[k])).map(|k| 1 << k).sum();
        let named = |g: usize| outline.first_with(g).map_or(0, |r| set(names(sheet.bytes(&outline.regions[r].guard)).collect()));
        let touched = Touched {
            assigned: outline.regions.iter().map(|region| set(assigned(sheet.bytes(&region.body)))).collect(),
            named: (0..outline.guards).map(named).collect(),
        };
        (touched.count() == usize::from(table.pairs)).then_some(touched)
    }

    fn count(&self) -> usize {
        (0..self.assigned.len()).map(|r| (0..self.named.len()).filter(|&g| self.by(r, g) != 0).count()).sum()
    }

    /// The variables, as bits, that a region's body assigns and a guard names; none where the pair is not touched.
    pub fn by(&self, region: usize, guard: usize) -> u8 {
        self.assigned[region] & self.named[guard]
    }
}

/// The names in a text; reserved words and numbers among them are no variable's.
fn names(text: &[u8]) -> impl Iterator<Item = &[u8]> {
    text.split(|&byte| !words::is_word(byte)).filter(|name| !name.is_empty())
}

/// The names that stand directly before a `:=`.
fn assigned(body: &[u8]) -> Vec<&[u8]> {
    let marks = (0..body.len()).filter(|&at| body[at..].starts_with(b":="));
    marks.filter_map(|at| names(&body[..at]).last()).collect()
}
