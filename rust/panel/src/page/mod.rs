//! A hand-in as one HTML page that needs nothing else: the file, its table, and the run of a trace as a picture.
pub mod pairs;
mod picture;
mod run;
mod table;
mod text;
mod tries;

use crate::sheet::Sheet;
use crate::tries::Tried;
use crate::words::{self, some, Refused};
use damsonyet::Refusal;
use text::escape;

/// What a page is made of. Without a start the run begins at the file's start values.
pub struct Input<'a> {
    pub file: &'a [u8],
    pub file_name: &'a str,
    pub trace: Option<(&'a [u8], &'a str)>,
    pub start: Option<usize>,
}

/// Nothing from elsewhere is loaded, whatever the hand-in holds.
const POLICY: &str = "default-src 'none'; style-src 'unsafe-inline'; script-src 'unsafe-inline'; base-uri 'none'; form-action 'none'";

/// A part of the page: its id, its heading, and the HTML below that.
struct Part {
    id: &'static str,
    heading: &'static str,
    html: String,
}

/// The page's HTML.
pub fn page(input: &Input) -> String {
    let read = damsonyet::outline(input.file);
    let (sheet, verdict) = match read {
        Ok((outline, verdict)) => (Some(Sheet::new(input.file, outline)), verdict),
        Err(refusal) => (None, Err(refusal)),
    };
    let refused = verdict.err().map(|refusal| (refusal, words::refusal(input.file, &refusal)));
    let tried = sheet.as_ref().and_then(crate::tries::tries).unwrap_or_default();
    let mut parts = vec![Part { id: "file", heading: "The file", html: file(input, sheet.as_ref(), &tried, refused.as_ref()) }];
    let mut told = vec![verdict_html(sheet.as_ref(), &tried, refused.as_ref())];
    if let Some(sheet) = sheet.as_ref().filter(|_| !tried.is_empty()) {
        parts.push(Part { id: "tries", heading: "The tries", html: tries::tries(sheet, &tried) });
    }
    if let (Some(sheet), Ok(table)) = (&sheet, damsonyet::place(input.file)) {
        parts.push(Part { id: "table", heading: "The table", html: table::table(sheet, &table) + &pairs::pairs(sheet, &table) });
        if let Some((trace, name)) = input.trace {
            let run = run::run(sheet, trace, name, input.start);
            told.push(run.summary);
            parts.push(Part { id: "run", heading: "The run", html: run.picture });
            parts.push(Part { id: "answers", heading: "The answers", html: run.answers });
        }
    } else if let Some((_, name)) = input.trace {
        told.push(format!("<p>As the file is refused, <b>{}</b> is not run.</p>", escape(short(name))));
    }
    let name = sheet.as_ref().map_or_else(|| short(input.file_name).into(), |sheet| format!("monitor {}", sheet.title()));
    document(&name, input, &told.join("\n"), &parts)
}

/// A file's path as far as it tells hand-ins apart: its name and the folder that it is in.
fn short(path: &str) -> &str {
    let mut slashes = path.rmatch_indices('/').map(|(at, _)| at);
    slashes.nth(1).map_or(path, |at| &path[at + 1..])
}

fn document(name: &str, input: &Input, told: &str, parts: &[Part]) -> String {
    let name = escape(name);
    let files: Vec<&str> = [Some(input.file_name), input.trace.map(|(_, name)| name)].into_iter().flatten().map(short).collect();
    let files = escape(&files.join(", "));
    let links: String = parts.iter().map(|part| format!("<li><a href=\"#{}\">{}</a></li>", part.id, part.heading)).collect();
    let nav = if parts.len() > 1 { format!("<nav aria-label=\"On this page\"><ul>{links}</ul></nav>\n") } else { String::new() };
    let under = if files == name { String::new() } else { format!("<p class=\"files\">{files}</p>\n") };
    let title = if files == name { files } else { format!("{name} &#8211; {files}") };
    let mut body = String::new();
    for Part { id, heading, html } in parts {
        body.push_str(&format!("<section id=\"{id}\" aria-labelledby=\"{id}-h\">\n<h2 id=\"{id}-h\">{heading}</h2>\n{html}</section>\n"));
    }
    format!(
        "<!DOCTYPE html>\n<html lang=\"en\">\n<head>\n<meta charset=\"utf-8\">\n\
         <meta http-equiv=\"Content-Security-Policy\" content=\"{POLICY}\">\n\
         <meta name=\"viewport\" content=\"width=device-width, initial-scale=1\">\n<meta name=\"color-scheme\" content=\"light dark\">\n\
         <title>{title}</title>\n<style>\n{style}</style>\n</head>\n<body>\n{marks}\
         <header>\n<h1>{name}</h1>\n{under}{told}\n{nav}</header>\n<main>\n{body}</main>\n\
         <footer><p>The verdict, the table and every point of the run are the library's; the words and pictures are a help for reading. \
         What counts is what <code>placer</code> and <code>runner</code> print.</p></footer>\n\
         <script>\n{script}</script>\n</body>\n</html>\n",
        style = include_str!("page.css"),
        script = include_str!("page.js"),
        marks = include_str!("marks.svg"),
    )
}

fn verdict_html(sheet: Option<&Sheet>, tried: &[Tried], refused: Option<&(Refusal, Refused)>) -> String {
    if let Some((_, refused)) = refused {
        return format!("<p class=\"verdict no\"><b>Refused.</b> {}.</p>", escape(&refused.headline));
    }
    let Some(sheet) = sheet else { return String::new() };
    let outline = &sheet.outline;
    format!(
        "<p class=\"verdict yes\"><b>Accepted.</b> {}, {}, {}, {}, {}{}.</p>",
        some(outline.variables.len(), "variable"),
        some(outline.states, "state"),
        some(outline.methods.len(), "method"),
        some(outline.regions.len(), "region"),
        some(outline.guards, "guard"),
        if tried.is_empty() { String::new() } else { format!("; tries: {}", crate::tries::count(tried)) }
    )
}

/// Text with a capital letter and a full stop.
fn sentence(text: &str) -> String {
    let mut letters = text.chars();
    let first = letters.next().map(|c| c.to_ascii_uppercase().to_string()).unwrap_or_default();
    let end = if text.is_empty() || text.ends_with('.') { "" } else { "." };
    format!("{first}{}{end}", letters.as_str())
}

/// A refusal in a box.
fn refused_html(refused: &Refused) -> String {
    let line = |label: &str, text: &str| match text {
        "" => String::new(),
        text => format!("<p><b>{label}</b> {}</p>", escape(&sentence(text))),
    };
    format!(
        "<div class=\"box no\">\n<p class=\"headline\">Refused, {}</p>\n{}{}</div>\n",
        escape(&refused.headline),
        line("Why:", &refused.reason),
        line("What to do:", &refused.remedy)
    )
}

fn file(input: &Input, sheet: Option<&Sheet>, tried: &[Tried], refused: Option<&(Refusal, Refused)>) -> String {
    let mut out = String::new();
    let at = refused.filter(|(refusal, _)| matches!(refusal.number, 2..=8 | 15)).and_then(|(_, refused)| refused.at);
    let broken = refused.filter(|(refusal, _)| refusal.number == 9).map(|(refusal, _)| refusal.first);
    if let Some((_, refused)) = refused {
        out.push_str(&refused_html(refused));
        if let Some(at) = at {
            let head = &input.file[..at.min(input.file.len())];
            let line = head.iter().filter(|&&byte| byte == b'\n').count() + 1;
            let column = head.iter().rev().take_while(|&&byte| byte != b'\n').count() + 1;
            out.push_str(&format!("<p>The place is <a href=\"#refused\">line {line}, column {column}</a>, byte {at}.</p>\n"));
        }
    }
    out.push_str(&text::listing(input.file, sheet, tried, at.zip(refused.map(|(_, refused)| refused.headline.as_str())), broken));
    if let Some(sheet) = sheet {
        let kept = text::kept_legend(sheet, tried);
        out.push_str(&format!(
            "<p class=\"small legend\"><span class=\"guard\" data-tag=\"g00\">a guard</span> with its number, \
             <span class=\"body\">a body</span>, {kept}; \
             at the left the line, and the region that begins there with its method.</p>\n"
        ));
    }
    out
}
