//! The table as a matrix of regions and guards, and its entries as sentences.
use super::text::escape;
use crate::sheet::{pair, Sheet};
use crate::words;
use damsonyet::{Entry, Table};

/// A picture of an entry, by the marks that stand at the top of the page.
pub fn mark(broadcast: bool, unconditional: bool) -> String {
    let name = if broadcast { "broadcast" } else { "signal" };
    let class = if unconditional { "mark" } else { "mark asks" };
    format!("<svg class=\"{class}\" viewBox=\"0 0 28 18\" width=\"28\" height=\"18\" aria-hidden=\"true\"><use href=\"#{name}\"/></svg>")
}

fn cell(entry: Option<&Entry>) -> String {
    match entry {
        None => "<td class=\"none\"><span aria-hidden=\"true\">&#183;</span><span class=\"hidden\">nobody</span></td>".into(),
        Some(entry) => format!(
            "<td>{}<b>{}</b> <span class=\"when\">{}</span></td>",
            mark(entry.broadcast, entry.unconditional),
            if entry.broadcast { "broadcast" } else { "signal" },
            if entry.unconditional { "always" } else { "if it holds" }
        ),
    }
}

/// More guards than this do not fit a printed page without being set small.
const MANY: usize = 4;

/// The matrix, its legend and the sentences.
pub fn table(sheet: &Sheet, table: &Table) -> String {
    let outline = &sheet.outline;
    let mut out = String::from(
        "<p>After a region's body (a row) its thread wakes waiters on guards (the columns). Where there is only a dot, nobody needs a notice.</p>\n\
         <div class=\"scroll\" tabindex=\"0\" role=\"group\" aria-label=\"the table\">\n",
    );
    let class = if outline.guards > MANY { "matrix many" } else { "matrix" };
    out.push_str(&format!("<table class=\"{class}\">\n<thead>\n<tr><td></td>"));
    for g in 0..outline.guards {
        out.push_str(&format!("<th scope=\"col\">g{} <code>{}</code></th>", pair(g as u8), escape(&words::guard(sheet, g))));
    }
    out.push_str("</tr>\n</thead>\n<tbody>\n");
    for r in 0..outline.regions.len() {
        out.push_str(&format!("<tr><th scope=\"row\">{} {}</th>", pair(r as u8), escape(&sheet.region_name(r))));
        for g in 0..outline.guards {
            out.push_str(&cell(table.entries.iter().find(|entry| (usize::from(entry.region), usize::from(entry.guard)) == (r, g))));
        }
        out.push_str("</tr>\n");
    }
    out.push_str("</tbody>\n</table>\n</div>\n");
    out.push_str(&format!(
        "<ul class=\"small key\">\n<li>{} signal: the first waiter, the earliest, is notified</li>\n<li>{} broadcast: all waiters are</li>\n\
         <li>{}{} filled: always, without asking</li>\n<li>{}{} hollow: only if the guard then holds</li>\n</ul>\n",
        mark(false, true),
        mark(true, true),
        mark(false, true),
        mark(true, true),
        mark(false, false),
        mark(true, false)
    ));
    if table.entries.is_empty() {
        out.push_str("<p>The table is empty: no body makes another guard true, and nobody needs a notice.</p>\n");
        return out;
    }
    out.push_str("<ol class=\"entries\">\n");
    for (entry, line) in table.entries.iter().zip(table.text.chunks_exact(9)) {
        let line = String::from_utf8_lossy(line.trim_ascii_end());
        out.push_str(&format!("<li><code>{}</code> <span>{}</span></li>\n", escape(&line), escape(&words::entry(sheet, entry))));
    }
    out.push_str("</ol>\n");
    out
}
