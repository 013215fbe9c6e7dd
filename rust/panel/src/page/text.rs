//! Text for HTML: escaping, and the file with its parts marked.
use crate::sheet::{pair, Sheet};
use crate::tries::Tried;
use crate::words::{grouped, some};
use damsonyet::Fate;
use std::ops::Range;

/// Text with what HTML gives a meaning escaped, and control characters replaced.
pub fn escape(text: &str) -> String {
    let mut out = String::with_capacity(text.len());
    for c in text.chars() {
        match c {
            '&' => out.push_str("&amp;"),
            '<' => out.push_str("&lt;"),
            '>' => out.push_str("&gt;"),
            '"' => out.push_str("&quot;"),
            '\'' => out.push_str("&#39;"),
            c if is_odd(c) => out.push('·'),
            c => out.push(c),
        }
    }
    out
}

/// Control characters and those that turn the direction of text round.
fn is_odd(c: char) -> bool {
    c.is_control() || matches!(c, '\u{200B}'..='\u{200F}' | '\u{2028}'..='\u{202E}' | '\u{2060}'..='\u{206F}' | '\u{FEFF}')
}

/// Bytes of a hand-in: a tab as a blank, and each run of bytes that are not printable as dots in an element of their own.
pub fn bytes(bytes: &[u8]) -> String {
    let printable = |byte: &u8| matches!(byte, b'\t' | 0x20..=0x7E);
    let mut out = String::new();
    for run in bytes.chunk_by(|a, b| printable(a) == printable(b)) {
        if printable(&run[0]) {
            let text: String = run.iter().map(|&byte| if byte == b'\t' { ' ' } else { char::from(byte) }).collect();
            out.push_str(&escape(&text));
        } else {
            out.push_str("<span class=\"odd\">");
            out.extend(run.iter().map(|_| '·'));
            out.push_str("</span>");
        }
    }
    out
}

/// A part of the file that is marked: where, the class of its element, and its tag.
struct Mark {
    span: Range<usize>,
    class: &'static str,
    tag: String,
    says: String,
}

/// What is shown of the file at most: as much as a file may have.
const SHOWN: usize = 8192;

/// What the legend says of the kept condition and of marked tries.
pub fn kept_legend(sheet: &Sheet, tried: &[Tried]) -> &'static str {
    match (sheet.outline.tries.is_empty(), tried.is_empty()) {
        (true, _) => "<span class=\"keep\">the kept condition</span>",
        (_, true) => "<span class=\"keep\">the condition of keep</span>, <span class=\"try\" data-tag=\"t00\">a try</span>",
        _ => {
            "<span class=\"keep\">the condition of keep</span>, <span class=\"try yes\" data-tag=\"t00 ✓\">a chosen try</span>, \
             <span class=\"try no\" data-tag=\"t01 ✗\">one that is not chosen</span>"
        }
    }
}

/// The file with line numbers, its regions, its kept condition and its tries marked; the refused byte, if there is one, with what is said of it; and the
/// region that breaks, if there is one.
pub fn listing(file: &[u8], sheet: Option<&Sheet>, tried: &[Tried], refused: Option<(usize, &str)>, broken: Option<usize>) -> String {
    let marks = sheet.map_or_else(Vec::new, |sheet| marks(sheet, tried, broken));
    let mut out = String::from("<div class=\"scroll code\" tabindex=\"0\" role=\"group\" aria-label=\"the file's text\">\n");
    let widest = sheet.map_or(0, |sheet| (0..sheet.outline.regions.len()).map(|r| sheet.region_name(r).len() + 4).max().unwrap_or(0));
    out.push_str(&format!("<div class=\"lines\" style=\"--note:{widest}ch\">\n"));
    let file_shown = &file[..file.len().min(SHOWN)];
    let mut from = 0;
    for (k, line) in file_shown.split(|&byte| byte == b'\n').enumerate() {
        let to = from + line.len();
        // The last line is empty where the file ends with a line feed: shown only if the refused place is there.
        if from == file_shown.len() && k > 0 && refused.map(|(at, _)| at) != Some(from) {
            break;
        }
        let notes: Vec<String> = sheet.map_or_else(Vec::new, |sheet| {
            let begins = |r: &usize| (from..=to).contains(&sheet.outline.regions[*r].guard.start);
            let note = |r| {
                let (number, name) = (pair(r as u8), escape(&sheet.region_name(r)));
                format!("<span title=\"region {number}, {name}\">{number} {name}</span>")
            };
            (0..sheet.outline.regions.len()).filter(begins).map(note).collect()
        });
        let place = refused.filter(|(at, _)| (from..=to).contains(at));
        out.push_str(&format!(
            "<div class=\"line\"><span class=\"no\">{}</span><span class=\"note\">{}</span><code>{}</code></div>\n",
            k + 1,
            notes.join(""),
            marked(file_shown, from..to, &marks, place.map(|(at, _)| at))
        ));
        if let Some((at, says)) = place {
            let blanks = " ".repeat(at - from);
            out.push_str(&format!(
                "<div class=\"line under\"><span class=\"no\"></span><span class=\"note\"></span><code>{blanks}&#9650; {}</code></div>\n",
                escape(says)
            ));
        }
        from = to + 1;
    }
    out.push_str("</div>\n</div>\n");
    if file.len() > SHOWN {
        out.push_str(&format!("<p class=\"small\">Shown are the first {} of {}.</p>\n", grouped(SHOWN), some(file.len(), "byte")));
    }
    out
}

fn marks(sheet: &Sheet, tried: &[Tried], broken: Option<usize>) -> Vec<Mark> {
    let kept = if sheet.outline.tries.is_empty() { "the kept condition" } else { "the condition of keep" };
    let mut marks = vec![Mark { span: sheet.outline.keep.clone(), class: "keep", tag: String::new(), says: kept.into() }];
    for (k, span) in sheet.outline.tries.iter().enumerate() {
        let number = pair(k as u8);
        // Of a file that is refused with 8 no fates are told.
        let (class, mark, says) = match tried.get(k).map(|tried| tried.fate) {
            Some(Fate::Chosen) => ("try yes", " ✓", ", chosen"),
            Some(Fate::FalseAtStart) => ("try no", " ✗", ", false at the start values"),
            Some(Fate::Broken { .. }) => ("try no", " ✗", ", broken"),
            None => ("try", "", ""),
        };
        marks.push(Mark { span: span.clone(), class, tag: format!("t{number}{mark}"), says: format!("try {number}{says}") });
    }
    for (r, region) in sheet.outline.regions.iter().enumerate() {
        let (number, name) = (pair(r as u8), escape(&sheet.region_name(r)));
        let guard = pair(region.guard_number);
        marks.push(Mark {
            span: region.guard.clone(),
            class: "guard",
            tag: format!("g{guard}"),
            says: format!("guard {guard}, of region {number}, {name}"),
        });
        let class = if broken == Some(r) { "body broken" } else { "body" };
        marks.push(Mark { span: region.body.clone(), class, tag: String::new(), says: format!("body of region {number}, {name}") });
    }
    marks.retain(|mark| !mark.span.is_empty());
    marks
}

/// A line with what of the marks lies on it; marks do not overlap. Blanks at the ends of a mark stay outside.
fn marked(file: &[u8], line: Range<usize>, marks: &[Mark], refused: Option<usize>) -> String {
    let mut out = String::new();
    let mut at = line.start;
    for mark in marks {
        let (from, to) = (mark.span.start.max(line.start), mark.span.end.min(line.end));
        if from >= to || from < at {
            continue;
        }
        let part = &file[from..to];
        let trimmed = part.trim_ascii();
        if trimmed.is_empty() {
            continue;
        }
        let begin = from + part.len() - part.trim_ascii_start().len();
        out.push_str(&plain(file, at..begin, refused));
        let first = mark.span.start == from || file[mark.span.start..from].trim_ascii().is_empty();
        let tag = if first && !mark.tag.is_empty() { format!(" data-tag=\"{}\"", mark.tag) } else { String::new() };
        out.push_str(&format!("<span class=\"{}\"{tag} title=\"{}\">", mark.class, mark.says));
        at = begin + trimmed.len();
        out.push_str(&plain(file, begin..at, refused));
        out.push_str("</span>");
    }
    out.push_str(&plain(file, at..line.end, refused));
    if refused == Some(line.end) {
        let what = if line.end == file.len() { "the file ends here" } else { "the line ends here" };
        out.push_str(&format!("<span class=\"refused\" id=\"refused\">{what}</span>"));
    }
    out
}

/// Bytes without marks, but for the refused one.
fn plain(file: &[u8], span: Range<usize>, refused: Option<usize>) -> String {
    match refused {
        Some(at) if span.contains(&at) => format!(
            "{}<span class=\"refused\" id=\"refused\">{}</span>{}",
            bytes(&file[span.start..at]),
            bytes(&file[at..at + 1]),
            bytes(&file[at + 1..span.end])
        ),
        _ => bytes(&file[span]),
    }
}
