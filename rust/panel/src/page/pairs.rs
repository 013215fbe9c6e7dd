//! The touched pairs as a small grid: regions down, guards across.
use super::table::mark;
use super::text::escape;
use crate::pairs::{self, Touched};
use crate::sheet::{pair, Sheet};
use crate::words;
use damsonyet::{Entry, Table};

/// What an entry does, in a few words.
fn does(entry: &Entry) -> String {
    let what = if entry.broadcast { "broadcast" } else { "signal" };
    format!("{what}, {}", if entry.unconditional { "always" } else { "if it holds" })
}

/// A cell: hatched where the pair is not touched; a dot, or the entry's mark, where it is.
fn cell(sheet: &Sheet, touched: &Touched, table: &Table, r: usize, g: usize) -> String {
    let (region, guard) = (escape(&sheet.region_name(r)), format!("g{}", pair(g as u8)));
    let by: Vec<String> = damsonyet::members(touched.by(r, g).into()).into_iter().map(|k| sheet.variable_name(k.into())).collect();
    if by.is_empty() {
        return format!(
            "<td class=\"bare\" title=\"{region} assigns nothing that {guard} names\"><span class=\"hidden\">not touched</span></td>"
        );
    }
    let entry = table.entries.iter().find(|entry| (usize::from(entry.region), usize::from(entry.guard)) == (r, g));
    let (picture, says) = match entry {
        Some(entry) => (mark(entry.broadcast, entry.unconditional), does(entry)),
        None => ("<b aria-hidden=\"true\">&#8226;</b>".into(), "no entry".into()),
    };
    let by = escape(&words::listed(&by));
    format!("<td title=\"{region} assigns {by}, which {guard} names: {says}\">{picture}<span class=\"hidden\">touched, {says}</span></td>")
}

fn grid(sheet: &Sheet, touched: &Touched, table: &Table) -> String {
    let outline = &sheet.outline;
    let mut out = String::from(
        "<div class=\"scroll\" tabindex=\"0\" role=\"group\" aria-label=\"the touched pairs\">\n<table class=\"pairs\">\n<thead>\n<tr><td></td>",
    );
    for g in 0..outline.guards {
        let number = pair(g as u8);
        out.push_str(&format!("<th scope=\"col\" title=\"guard {number}: {}\">g{number}</th>", escape(&sheet.guard_text(g))));
    }
    out.push_str("</tr>\n</thead>\n<tbody>\n");
    for r in 0..outline.regions.len() {
        let (number, name) = (pair(r as u8), escape(&sheet.region_name(r)));
        out.push_str(&format!("<tr><th scope=\"row\" title=\"region {number}, {name}: {}\">r{number}</th>", escape(&sheet.body_text(r))));
        (0..outline.guards).for_each(|g| out.push_str(&cell(sheet, touched, table, r, g)));
        out.push_str("</tr>\n");
    }
    out.push_str("</tbody>\n</table>\n</div>\n");
    out.push_str(&format!(
        "<ul class=\"small key\">\n<li>{}{} touched, with an entry: its mark, as in the table</li>\n\
         <li><span class=\"cell\"><b>&#8226;</b></span> touched, and no entry all the same</li>\n\
         <li><span class=\"cell bare\"></span> not touched: no entry, by the text alone</li>\n</ul>\n",
        mark(false, true),
        mark(true, false)
    ));
    out
}

/// How many pairs are touched, and a grid of them. Where the names in the text do not give the library's count, there is no grid.
pub fn pairs(sheet: &Sheet, table: &Table) -> String {
    let outline = &sheet.outline;
    let others = pairs::others(outline, table).map_or_else(String::new, |others| format!(" {}", super::sentence(others)));
    let grid = Touched::of(sheet, table).map_or_else(String::new, |touched| grid(sheet, &touched, table));
    format!(
        "<h3>Touched pairs</h3>\n<p>Pairs of region and guard: <b>{}</b>. A pair is touched where the region's body assigns, anywhere in its text, a \
         variable that the guard names; a region's own guard counts like any other.{others}</p>\n{grid}",
        pairs::count(outline, table)
    )
}
