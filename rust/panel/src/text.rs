//! What the commands print for people.
use crate::frames::{self, Frame};
use crate::out::{Out, Style, NO_BREAK};
use crate::pairs;
use crate::sheet::{pair, shown, Sheet};
use crate::tries::{self, Tried};
use crate::words::{self, Refused};
use damsonyet::{Fate, Machine, Place, Point, Points, Refusal, Table};
use std::io;
use std::ops::RangeInclusive;

/// Whether a hand-in passes.
#[derive(Clone, Copy, Debug, PartialEq, Eq)]
pub enum Verdict {
    Accepted,
    Refused,
}

impl Verdict {
    pub fn of<T>(result: &Result<T, Refusal>) -> Verdict {
        if result.is_ok() {
            Verdict::Accepted
        } else {
            Verdict::Refused
        }
    }
}

/// A hand-in: a file and its name, maybe a trace and its name, and the state to start from where it is not the start values'.
pub struct HandIn<'a> {
    pub file: &'a [u8],
    pub file_name: &'a str,
    pub trace: Option<(&'a [u8], &'a str)>,
    pub start: Option<usize>,
    /// The frames that are told; all where it is none.
    pub frames: Option<RangeInclusive<usize>>,
}

/// The line and column of a byte, both from 1, and the byte at which its line begins.
pub fn line_and_column(bytes: &[u8], at: usize) -> (usize, usize, usize) {
    let head = &bytes[..at.min(bytes.len())];
    let start = head.iter().rposition(|&byte| byte == b'\n').map_or(0, |last| last + 1);
    (head.iter().filter(|&&byte| byte == b'\n').count() + 1, head.len() - start + 1, start)
}

/// A line of a file or a trace with a caret under a byte; of a long line the part around it.
fn caret(out: &mut Out, bytes: &[u8], at: usize) -> io::Result<()> {
    let (number, column, start) = line_and_column(bytes, at);
    let line = bytes[start..].split(|&byte| byte == b'\n').next().unwrap_or_default();
    let line = line.strip_suffix(b"\r").filter(|line| column <= line.len()).unwrap_or(line);
    let gutter = number.to_string().len();
    let room = out.width.saturating_sub(gutter + 6).max(20);
    let from = (column + 8).saturating_sub(room).min(column - 1);
    let part = &line[from.min(line.len())..line.len().min(from + room)];
    let before = column - 1 - from;
    let under = words::standing(bytes, at).len().clamp(1, part.len().saturating_sub(before).max(1));
    out.line(Style::Plain, format!("  {number} | {}", shown(part)).trim_end())?;
    out.line(Style::Mark, &format!("  {:gutter$} | {:before$}{}", "", "", "^".repeat(under)))
}

pub(crate) fn explained(out: &mut Out, refused: &Refused) -> io::Result<()> {
    if !refused.reason.is_empty() {
        out.text(Style::Plain, "  ", "  ", &refused.reason)?;
    }
    if !refused.remedy.is_empty() {
        out.text(Style::Plain, "  What to do: ", "    ", &refused.remedy)?;
    }
    Ok(())
}

/// The tries that are told of a file, if it has any.
fn tried(sheet: &Sheet) -> Option<Vec<Tried>> {
    tries::tries(sheet).filter(|tries| !tries.is_empty())
}

/// The tries: which are chosen, and why each other one is not.
fn tries_of(out: &mut Out, sheet: &Sheet, tries: &[Tried]) -> io::Result<()> {
    const INDENT: &str = "              ";
    out.heading(&format!("Tries: {}; {}", tries::count(tries), tries::kept(tries)))?;
    for (k, tried) in tries.iter().enumerate() {
        let style = if tried.fate == Fate::Chosen { Style::Good } else { Style::Mark };
        out.text(style, &format!("  {k:02X}  {:6}  ", tries::word(&tried.fate)), INDENT, &tried.text)?;
        if let Some(why) = tries::why(sheet, tries, k) {
            out.text(Style::Plain, INDENT, INDENT, &unbroken(&why))?;
        }
    }
    for hint in tries::hints(tries) {
        out.text(Style::Plain, "  ", "  ", hint)?;
    }
    Ok(())
}

/// A file's refusal: what and where, the line, why, and what to do; and what becomes of its tries, which the refusal comes behind.
pub(crate) fn refused_file(out: &mut Out, name: &str, file: &[u8], refusal: &Refusal) -> io::Result<()> {
    let refused = words::refusal(file, refusal);
    out.text(Style::Bad, "", "  ", &format!("{name}: refused, {}", refused.headline))?;
    if let Some(at) = refused.at {
        let (line, column, _) = line_and_column(file, at);
        out.text(Style::Plain, "  ", "  ", &format!("line {line}, column {column} (byte {at}):"))?;
        caret(out, file, at)?;
    }
    explained(out, &refused)?;
    let Ok((outline, _)) = damsonyet::outline(file) else { return Ok(()) };
    let sheet = Sheet::new(file, outline);
    let Some(tries) = tried(&sheet) else { return Ok(()) };
    out.blank()?;
    tries_of(out, &sheet, &tries)
}

/// What a file has, in numbers.
fn counts(sheet: &Sheet) -> String {
    let o = &sheet.outline;
    [(o.variables.len(), "variable"), (o.states, "state"), (o.methods.len(), "method"), (o.regions.len(), "region"), (o.guards, "guard")]
        .map(|(n, what)| words::some(n, what))
        .join(", ")
}

/// The sheet of an accepted file; of a refused one the refusal is told.
fn accepted<'a>(out: &mut Out, name: &str, file: &'a [u8]) -> io::Result<Option<Sheet<'a>>> {
    let refusal = match damsonyet::outline(file) {
        Ok((outline, Ok(()))) => return Ok(Some(Sheet::new(file, outline))),
        Ok((_, Err(refusal))) | Err(refusal) => refusal,
    };
    refused_file(out, name, file, &refusal)?;
    Ok(None)
}

pub fn check(out: &mut Out, name: &str, file: &[u8]) -> io::Result<Verdict> {
    let Some(sheet) = accepted(out, name, file)? else { return Ok(Verdict::Refused) };
    out.text(Style::Good, "", "  ", &format!("{name}: accepted"))?;
    out.text(Style::Plain, "  ", "  ", &format!("monitor {}: {}", sheet.title(), counts(&sheet)))?;
    if let Ok(placed) = damsonyet::place(file) {
        out.text(Style::Plain, "  ", "  ", &pairs::summary(&sheet.outline, &placed))?;
    }
    if let Some(tries) = tried(&sheet) {
        out.text(Style::Plain, "  ", "  ", &tries::summary(&tries))?;
    }
    Ok(Verdict::Accepted)
}

/// The letter of a pair of region and guard in the matrix.
fn letter(table: &Table, region: usize, guard: usize) -> char {
    let found = table.entries.iter().find(|entry| usize::from(entry.region) == region && usize::from(entry.guard) == guard);
    match found.map(|entry| (entry.unconditional, entry.broadcast)) {
        Some((true, true)) => 'B',
        Some((true, false)) => 'S',
        Some((false, true)) => 'b',
        Some((false, false)) => 's',
        None => '.',
    }
}

/// The matrix of regions (rows) and guards (columns), as wide as it fits: with names, without, or not at all.
fn matrix(sheet: &Sheet, table: &Table, width: usize) -> Option<Vec<String>> {
    let regions = 0..sheet.outline.regions.len();
    let guards = 0..sheet.outline.guards;
    let longest = regions.clone().map(|r| sheet.region_name(r).len()).max().unwrap_or(0);
    let label = |r: usize, names: bool| {
        if names {
            format!("  {:02X}  {:longest$}", r, sheet.region_name(r))
        } else {
            format!("  {r:02X}    ")
        }
    };
    let fits = |names: bool| label(0, names).len() + guards.len() * 4 <= width;
    let names = [true, false].into_iter().find(|&names| fits(names))?;
    let left = label(0, names).len();
    let head = |text: &str| format!("  {text:<rest$}", rest = left - 2);
    let mut lines = vec![head("region") + &guards.clone().map(|g| format!("  {g:02X}")).collect::<String>()];
    for r in regions {
        lines.push(label(r, names) + &guards.clone().map(|g| format!("   {}", letter(table, r, g))).collect::<String>());
    }
    Some(lines)
}

/// The table: a sentence an entry, then the matrix with its legend.
fn table(out: &mut Out, sheet: &Sheet, table: &Table) -> io::Result<()> {
    if table.entries.is_empty() {
        return out.text(Style::Plain, "  ", "  ", "The table is empty: no region ever needs to notify anybody.");
    }
    for entry in &table.entries {
        let digits = format!("  {:02X}{:02X}{:02X}{:02X}  ", entry.region, entry.guard, entry.unconditional as u8, entry.broadcast as u8);
        out.text(Style::Plain, &digits, "            ", &words::entry(sheet, entry))?;
    }
    let Some(lines) = matrix(sheet, table, out.width) else { return Ok(()) };
    out.blank()?;
    out.heading("Regions down, guards across")?;
    for line in lines {
        out.line(Style::Plain, line.trim_end())?;
    }
    out.blank()?;
    let used = |letters: &str| table.entries.iter().any(|e| letters.contains(letter(table, e.region.into(), e.guard.into())));
    for (letter, text) in [
        ("S", "signal the first waiter, without asking"),
        ("s", "signal the first waiter if the guard holds"),
        ("B", "broadcast to all waiters, without asking"),
        ("b", "broadcast to all waiters if the guard holds"),
    ] {
        if used(letter) {
            out.text(Style::Plain, &format!("  {letter}   "), "      ", text)?;
        }
    }
    out.text(Style::Plain, "  .   ", "      ", "no notice is ever needed")
}

fn guards(out: &mut Out, sheet: &Sheet) -> io::Result<()> {
    out.heading("Guards")?;
    for g in 0..sheet.outline.guards {
        out.text(Style::Plain, &format!("  {g:02X}  "), "      ", &sheet.guard_text(g))?;
    }
    Ok(())
}

pub fn place(out: &mut Out, name: &str, file: &[u8]) -> io::Result<Verdict> {
    let Some(sheet) = accepted(out, name, file)? else { return Ok(Verdict::Refused) };
    let Ok(placed) = damsonyet::place(file) else { return Ok(Verdict::Refused) };
    let entries = words::entries(placed.entries.len());
    out.text(Style::Good, "", "  ", &format!("{name}: accepted, {entries}"))?;
    out.text(Style::Plain, "  ", "  ", &pairs::summary(&sheet.outline, &placed))?;
    out.blank()?;
    out.heading("Table: region, guard, 01 unconditional, 01 broadcast")?;
    table(out, &sheet, &placed)?;
    out.blank()?;
    guards(out, &sheet)?;
    if let Some(tries) = tried(&sheet) {
        out.blank()?;
        tries_of(out, &sheet, &tries)?;
    }
    Ok(Verdict::Accepted)
}

/// Variables, kept condition, tries, guards and regions.
fn listing(out: &mut Out, sheet: &Sheet) -> io::Result<()> {
    let o = &sheet.outline;
    out.heading("Variables")?;
    let longest = (0..o.variables.len()).map(|k| sheet.variable_name(k).len()).max().unwrap_or(0);
    for (k, variable) in o.variables.iter().enumerate() {
        let range = format!("{}..{}, starts at {}", variable.low, variable.high, variable.start);
        out.text(Style::Plain, &format!("  {:longest$}  ", sheet.variable_name(k)), "      ", &range)?;
    }
    out.heading(if o.tries.is_empty() { "Kept condition" } else { "Kept condition: keep" })?;
    out.text(Style::Plain, "  ", "  ", &sheet.keep_text())?;
    if let Some(tries) = tried(sheet) {
        tries_of(out, sheet, &tries)?;
    }
    guards(out, sheet)?;
    out.heading("Regions")?;
    let longest = (0..o.regions.len()).map(|r| sheet.region_name(r).len()).max().unwrap_or(0);
    for (r, region) in o.regions.iter().enumerate() {
        let name = format!("  {r:02X}  {:longest$}  ", sheet.region_name(r));
        let next = match o.method_of(r) {
            Some(j) if o.methods[j].regions.contains(&(r + 1)) => format!(", then goes on to region {:02X}", r + 1),
            _ => String::new(),
        };
        let guard = words::guard(sheet, region.guard_number.into());
        let text = format!("waits until {guard} (guard {}){next}", pair(region.guard_number));
        out.text(Style::Plain, &name, "      ", &text)?;
        let body = sheet.body_text(r);
        out.text(Style::Plain, "      and runs ", "        ", if body.is_empty() { "nothing" } else { &body })?;
    }
    Ok(())
}

/// Who waits: the line on each guard that has one, the earliest first: `waiting on guard 00: 02 at put; guard 01: 05 00 at get`.
pub(crate) fn waiting(sheet: &Sheet, places: &[Place; 16], line: impl Fn(usize) -> Vec<u8>) -> String {
    let on = |g: usize| {
        let line = line(g);
        (!line.is_empty()).then(|| format!("guard{NO_BREAK}{}: {}", pair(g as u8), standing(sheet, places, &line)))
    };
    let lines: Vec<String> = (0..sheet.outline.guards).filter_map(on).collect();
    if lines.is_empty() {
        "waiting: none".into()
    } else {
        format!("waiting on {}", lines.join("; "))
    }
}

/// A line with the regions at which it waits: `01 at closed1, 00 03 at open2`.
fn standing(sheet: &Sheet, places: &[Place; 16], line: &[u8]) -> String {
    let place = |t: &u8| places[usize::from(*t)];
    let group = |group: &[u8]| {
        let at = match place(&group[0]) {
            Place::Waiting(r) => sheet.region_name(r.into()),
            _ => String::new(),
        };
        format!("{} at {at}", group.iter().copied().map(pair).collect::<Vec<_>>().join(" "))
    };
    line.chunk_by(|a, b| place(a) == place(b)).map(group).collect::<Vec<_>>().join(", ")
}

fn due(sheet: &Sheet, point: &Point) -> String {
    let found = (0..16u8).find_map(|t| match point.places[usize::from(t)] {
        Place::Due(r) => Some(format!(" | due: {} at {}", pair(t), sheet.region_name(r.into()))),
        _ => None,
    });
    found.unwrap_or_default()
}

/// A set of threads, those just told marked with `+`.
fn notified(notices: &damsonyet::Notices) -> String {
    let one = |t: u8| format!("{}{}", if notices.told >> t & 1 == 1 { "+" } else { "" }, pair(t));
    let all: Vec<String> = damsonyet::members(notices.notified).into_iter().map(one).collect();
    format!("notified: {}", if all.is_empty() { "none".into() } else { all.join(" ") })
}

/// A text in which no line is cut between a name and its value.
pub(crate) fn unbroken(text: &str) -> String {
    text.replace(" = ", &format!("{NO_BREAK}={NO_BREAK}"))
}

/// A point: what both machines share once, and the notices of each where they differ.
fn point(out: &mut Out, sheet: &Sheet, point: &Point) -> io::Result<()> {
    let waiting = waiting(sheet, &point.places, |g| point.line(&sheet.outline, g));
    let shared = format!("{} | {waiting}{}", unbroken(&sheet.state_text(&point.values)), due(sheet, point));
    let mut line = |who: &str, text: &str| out.text(Style::Plain, &format!("  {who:5}  "), "         ", text);
    match &point.table {
        Some(table) if table.notified == point.plain.notified && table.told == point.plain.told => {
            line("both", &format!("{shared} | {}", notified(table)))
        }
        Some(table) => {
            line("both", &shared)?;
            line("plain", &notified(&point.plain))?;
            line("table", &notified(table))
        }
        None => line("plain", &format!("{shared} | {}", notified(&point.plain))),
    }
}

/// A machine's refusal of a frame, below the frame.
fn refused_frame(out: &mut Out, who: &str, refused: &Refused, number: u8) -> io::Result<()> {
    out.text(Style::Bad, &format!("  {who:5}  "), "         ", &format!("refused with {number}. {}", refused.reason))
}

/// A run that the library has taken apart into points.
struct Run<'a> {
    sheet: &'a Sheet<'a>,
    trace: &'a [u8],
    start: usize,
    frames: Vec<Frame>,
    points: Points,
}

impl Run<'_> {
    fn refused(&self, machine: Machine) -> Option<(Refusal, Refused)> {
        let answer = if machine == Machine::Plain { &self.points.plain } else { &self.points.table };
        let refusal = answer.err()?;
        Some((refusal, words::run_refusal(self.sheet, self.trace, self.start, &self.points.points, machine, &refusal)))
    }

    /// The lines of frame k: its sentence, and the point behind it or why a machine refuses it.
    fn frame(&self, out: &mut Out, k: usize) -> io::Result<()> {
        let (Some(frame), Some(before)) = (self.frames.get(k), self.points.points.get(k)) else { return Ok(()) };
        let after = self.points.points.get(k + 1);
        let head = format!("Frame {k}  {}  ", frame.text());
        out.text(Style::Bold, &head, "         ", &words::frame(self.sheet, frame, before, after))?;
        let here = |answer: &Result<(), Refusal>| answer.is_err_and(|refusal| refusal.first == k);
        let plain = if here(&self.points.plain) { self.refused(Machine::Plain) } else { None };
        let table = if here(&self.points.table) { self.refused(Machine::Table) } else { None };
        if let Some(after) = after {
            point(out, self.sheet, after)?;
        }
        match (plain, table) {
            (Some((plain, said)), Some((table, also))) if plain == table && said.reason == also.reason => {
                refused_frame(out, "both", &said, plain.number)
            }
            (plain, table) => {
                let parts = plain.is_none() && table.is_some();
                for (who, refused) in [("plain", plain), ("table", table)] {
                    if let Some((refusal, refused)) = refused {
                        refused_frame(out, who, &refused, refusal.number)?;
                    }
                }
                if parts {
                    out.text(Style::Mark, "  >>>>>  ", "         ", &words::parting(self.sheet, frame, before))?;
                }
                Ok(())
            }
        }
    }

    /// The frames that are told, from the point before them.
    fn told(&self, out: &mut Out, range: Option<&RangeInclusive<usize>>) -> io::Result<()> {
        let first = range.map_or(0, |range| *range.start());
        let judged = self.points.points.len().min(self.frames.len());
        let last = range.map_or(usize::MAX, |range| *range.end());
        if first >= judged && first > 0 {
            let text = format!("no frame from {first} on is judged: there are {} of {}", judged, words::some(self.frames.len(), "frame"));
            return out.text(Style::Plain, "  ", "  ", &text);
        }
        if let Some(start) = self.points.points.get(first) {
            let head = if first == 0 { "Start".to_string() } else { format!("Before frame {first}") };
            out.line(Style::Bold, &head)?;
            point(out, self.sheet, start)?;
        }
        for k in (first..judged).take_while(|&k| k <= last) {
            self.frame(out, k)?;
        }
        Ok(())
    }

    fn answer(&self, out: &mut Out, who: &str, refused: Option<(Refusal, Refused)>, accepts: &str, refuses: &str) -> io::Result<()> {
        let lead = format!("  {who:5}  ");
        let Some((refusal, refused)) = refused else { return out.text(Style::Good, &lead, "         ", accepts) };
        let text = format!("{refuses} frame {} with {}. {}", refusal.first, refusal.number, refused.reason);
        out.text(Style::Bad, &lead, "         ", &text)?;
        out.text(Style::Plain, "         What to do: ", "           ", &refused.remedy)
    }

    fn answers(&self, out: &mut Out) -> io::Result<()> {
        out.heading("Answers")?;
        let (plain, table) = (self.refused(Machine::Plain), self.refused(Machine::Table));
        let all = words::some(self.frames.len(), "frame");
        if plain == table {
            self.answer(out, "both", plain, &format!("accept the trace, {all}"), "refuse")?;
        } else {
            self.answer(out, "plain", plain, &format!("accepts the trace, {all}"), "refuses")?;
            self.answer(out, "table", table, &format!("accepts the trace, {all}"), "refuses")?;
        }
        let parts = match words::parts_at(&self.points.plain, &self.points.table) {
            Some(k) => format!("The machines part at frame {k}: the table's stops there, the plain one goes on."),
            None => "The machines do not part.".into(),
        };
        out.text(Style::Plain, "  ", "  ", &parts)
    }
}

/// What `runner` prints, where it starts from the same state.
fn runner(out: &mut Out, file: &[u8], trace: &[u8]) -> io::Result<()> {
    out.blank()?;
    out.heading("What runner prints: the plain machine's line, then the table's")?;
    if trace.len() > 65_536 {
        out.text(Style::Plain, "  ", "  ", "(runner reads the first 65,536 bytes of a trace only.)")?;
    }
    for line in damsonyet::runner_lines(file, trace).split(|&byte| byte == b'\n').filter(|line| !line.is_empty()) {
        out.line(Style::Plain, &shown(line))?;
    }
    Ok(())
}

/// Both machines on a trace of an accepted file, frame by frame.
fn run_of(out: &mut Out, sheet: &Sheet, hand_in: &HandIn, trace: &[u8], name: &str) -> io::Result<Verdict> {
    let start = hand_in.start.unwrap_or(sheet.outline.start);
    let points = match damsonyet::points(sheet.file, trace, start) {
        Ok(points) => points,
        Err(refusal) => {
            let refused = words::run_refusal(sheet, trace, start, &[], Machine::Plain, &refusal);
            let name = if refusal.number == 11 { "start" } else { name };
            out.text(Style::Bad, "", "  ", &format!("{name}: refused, {}", refused.headline))?;
            if let Some(at) = refused.at {
                caret(out, trace, at)?;
            }
            explained(out, &refused)?;
            if start == sheet.outline.start {
                runner(out, sheet.file, trace)?;
            }
            return Ok(Verdict::Refused);
        }
    };
    let run = Run { sheet, trace, start, frames: frames::frames(trace), points };
    let refused = run.points.plain.is_err() || run.points.table.is_err();
    let from = if start == sheet.outline.start { "the start values".to_string() } else { format!("state {start}") };
    let title = format!("{name}: {} from {from}", words::some(run.frames.len(), "frame"));
    out.text(if refused { Style::Bad } else { Style::Good }, "", "  ", &title)?;
    run.told(out, hand_in.frames.as_ref())?;
    run.answers(out)?;
    if start == sheet.outline.start {
        runner(out, sheet.file, trace)?;
    }
    Ok(if refused { Verdict::Refused } else { Verdict::Accepted })
}

pub fn run(out: &mut Out, hand_in: &HandIn) -> io::Result<Verdict> {
    let Some(sheet) = accepted(out, hand_in.file_name, hand_in.file)? else { return Ok(Verdict::Refused) };
    let (trace, name) = hand_in.trace.unwrap_or((b"", "no trace"));
    run_of(out, &sheet, hand_in, trace, name)
}

/// A hand-in whole: the file, its table and, where there is a trace, its run.
pub fn show(out: &mut Out, hand_in: &HandIn) -> io::Result<Verdict> {
    let Some(sheet) = accepted(out, hand_in.file_name, hand_in.file)? else {
        out.blank()?;
        out.heading("What runner prints")?;
        for line in damsonyet::placer_lines(hand_in.file).split(|&byte| byte == b'\n').filter(|line| !line.is_empty()) {
            out.line(Style::Plain, &shown(line))?;
        }
        return Ok(Verdict::Refused);
    };
    let Ok(placed) = damsonyet::place(hand_in.file) else { return Ok(Verdict::Refused) };
    out.text(Style::Good, "", "  ", &format!("{}: accepted", hand_in.file_name))?;
    out.text(Style::Plain, "  ", "  ", &format!("monitor {}: {}", sheet.title(), counts(&sheet)))?;
    out.text(Style::Plain, "  ", "  ", &pairs::summary(&sheet.outline, &placed))?;
    out.blank()?;
    listing(out, &sheet)?;
    out.blank()?;
    out.heading("Table: region, guard, 01 unconditional, 01 broadcast")?;
    table(out, &sheet, &placed)?;
    let Some((trace, name)) = hand_in.trace else { return Ok(Verdict::Accepted) };
    out.blank()?;
    run_of(out, &sheet, hand_in, trace, name)
}
