//! A trace's run on both machines: the picture in windows, the frames' sentences, and the answers.
use super::picture::{draw, longest, packed, sentences, shapes, step, Run, NAMES, WINDOW};
use super::text::{bytes, escape};
use super::{refused_html, sentence, short, Refused};
use crate::frames::{self, Frame};
use crate::sheet::{pair, Sheet};
use crate::words::{self, grouped, some};
use damsonyet::{Machine, Place, Point, Points, Refusal};

/// A trace of so many windows or fewer is on the page whole. Of a longer one the first window, the ones with marked frames and the last are, and
/// the page's script shows the others.
const WHOLE: usize = 4;

/// The frames that a page has at most: as many as `runner` reads.
const MOST: usize = 9362;
/// The bytes of a trace that `runner` reads.
const READ: usize = 65536;

/// What a page says of a run: at its top, as a picture, and at its end.
pub struct Told {
    pub summary: String,
    pub picture: String,
    pub answers: String,
}

/// Whom a frame has told, where anybody.
fn told(after: Option<&Point>) -> String {
    let Some(point) = after else { return String::new() };
    let who = |set: u16| if set == 0 { "nobody".into() } else { words::threads(set) };
    let plain = point.plain.told;
    match point.table.map(|table| table.told) {
        Some(table) if table != plain => format!(" Notified: {} in the plain machine, {} in the table's.", who(plain), who(table)),
        _ if plain == 0 => String::new(),
        Some(_) => format!(" Notified: {}.", who(plain)),
        None => format!(" Notified in the plain machine: {}.", who(plain)),
    }
}

/// A machine's answer in a few words.
fn answer(answer: &Result<(), Refusal>) -> String {
    match answer {
        Ok(()) => "accepts the trace".into(),
        Err(refusal @ Refusal { number: 13 | 14, .. }) => format!("answers {} at frame {}", refusal.number, refusal.first),
        Err(refusal) => format!("answers {}", refusal.number),
    }
}

pub fn run(sheet: &Sheet, trace: &[u8], name: &str, start: Option<usize>) -> Told {
    let begin = start.unwrap_or(sheet.outline.start);
    let lines = if begin == sheet.outline.start { runner_lines(sheet, trace) } else { String::new() };
    match damsonyet::points(sheet.file, trace, begin) {
        Ok(points) => {
            let frames = frames::frames(trace);
            let run = prepare(sheet, &frames[..frames.len().min(MOST)], &points, &why(sheet, trace, begin, &points));
            Told {
                summary: summary(&frames, &points),
                picture: picture(&run, sheet, begin),
                answers: answers(sheet, trace, begin, &points) + &lines,
            }
        }
        Err(refusal) => {
            let refused = words::run_refusal(sheet, trace, begin, &[], Machine::Plain, &refusal);
            let place = if refusal.number == 12 { near(trace, refusal.first) } else { String::new() };
            Told {
                summary: format!("<p class=\"verdict no\"><b>Not run.</b> {}, {}.</p>", escape(short(name)), escape(&refused.headline)),
                picture: format!("<p>There is no run to show.</p>\n{}{place}", refused_html(&refused)),
                answers: format!("<p>Both machines answer {}.</p>\n{lines}", refusal.number),
            }
        }
    }
}

/// The lines around one that is no frame.
fn near(trace: &[u8], bad: usize) -> String {
    /// Lines before and behind the bad one, and the bytes that are shown of a line.
    const AROUND: usize = 3;
    const MOST: usize = 120;
    let mut out =
        String::from("<div class=\"scroll code\" tabindex=\"0\" role=\"group\" aria-label=\"the trace's text\">\n<div class=\"lines\">\n");
    let first = bad.saturating_sub(AROUND);
    let rest = trace.get(frames::line_start(first)..).unwrap_or_default();
    for (k, line) in rest.split_inclusive(|&byte| byte == b'\n').take(2 * AROUND + 1).enumerate().map(|(k, line)| (first + k, line)) {
        let ended = line.ends_with(b"\n");
        let text = &line[..line.len() - usize::from(ended)];
        let cut = if text.len() > MOST { "…" } else { "" };
        let shown = bytes(&text[..text.len().min(MOST)]);
        let shown = match (k == bad, text.is_empty()) {
            (false, _) => shown,
            (true, true) => "<span class=\"refused\">empty</span>".into(),
            (true, false) => format!("<span class=\"refused\">{shown}</span>"),
        };
        let end = if ended { "" } else { "<span class=\"odd\"> no line feed</span>" };
        out.push_str(&format!("<div class=\"line\"><span class=\"no\">{k}</span><code>{shown}{cut}{end}</code></div>\n"));
    }
    out.push_str("</div>\n</div>\n");
    out
}

/// Why the plain machine stops, and the table's with it: where the reasons differ, both.
fn why(sheet: &Sheet, trace: &[u8], begin: usize, points: &Points) -> String {
    let reason = |machine, refusal: &Refusal| sentence(&words::run_refusal(sheet, trace, begin, &points.points, machine, refusal).reason);
    match (&points.plain, &points.table) {
        (Ok(()), _) => String::new(),
        (Err(plain), Err(table)) if plain == table => {
            let (plain, table) = (reason(Machine::Plain, plain), reason(Machine::Table, table));
            if plain == table {
                plain
            } else {
                format!("{plain} In the table's machine: {table}")
            }
        }
        (Err(plain), _) => reason(Machine::Plain, plain),
    }
}

fn prepare<'a>(sheet: &'a Sheet<'a>, frames: &'a [Frame], points: &'a Points, why: &str) -> Run<'a> {
    let drawn = frames.len().min(points.points.len());
    let says = (0..drawn)
        .map(|k| {
            let after = points.points.get(k + 1);
            let (frame, before) = (&frames[k], &points.points[k]);
            escape(&(words::frame(sheet, frame, before, after) + &words::line_behind(sheet, frame, before, after) + &told(after)))
        })
        .collect();
    let threads = (0..16).filter(|t| frames[..drawn].iter().any(|frame| frame.thread == *t)).collect();
    let mut marked: Vec<(usize, String, String)> = Vec::new();
    let parts = words::parts_at(&points.plain, &points.table);
    if let Some(k) = parts.filter(|&k| k < drawn) {
        let note = words::parting(sheet, &frames[k], &points.points[k]);
        marked.push((k, "they part: the table’s machine stops, 14".into(), format!("<em>{}</em>", escape(&note))));
    }
    if let Some(refusal) = points.plain.err().filter(|refusal| refusal.first < drawn) {
        let (flag, note) = if parts.is_some() {
            ("the plain machine stops", "Here the plain machine stops too, with")
        } else {
            ("both machines stop", "Here both machines stop, with")
        };
        marked.push((refusal.first, format!("{flag}, {}", refusal.number), format!("<em>{note} {}. {}</em>", refusal.number, escape(why))));
    }
    let longest = longest(sheet, &points.points[..points.points.len().min(drawn + 1)]);
    Run { sheet, frames, says, points: &points.points, threads, marked, alone: parts, step: step(drawn), longest }
}

fn summary(frames: &[Frame], points: &Points) -> String {
    let link = |k: usize| if k < MOST { format!("<a href=\"#f{k}\">frame {k}</a>") } else { format!("frame {k}") };
    let mut out = match (&points.plain, &points.table) {
        (Ok(()), Ok(())) => "<p class=\"verdict yes\"><b>Both machines accept the trace.</b>".to_string(),
        (plain, table) if plain == table => {
            let k = plain.map_or_else(|refusal| refusal.first, |()| 0);
            format!(
                "<p class=\"verdict no\"><b>Both machines refuse {}.</b> They answer {}.",
                link(k),
                plain.map_or_else(|r| r.number, |()| 0)
            )
        }
        (plain, table) => {
            let k = table.map_or_else(|refusal| refusal.first, |()| 0);
            format!(
                "<p class=\"verdict part\"><b>The machines part at {}.</b> The table’s {}, the plain one {}.",
                link(k),
                answer(table),
                answer(plain)
            )
        }
    };
    let judged = frames.len().min(points.points.len());
    if judged < frames.len() {
        out.push_str(&format!(" Judged: {} of {}.</p>", grouped(judged), some(frames.len(), "frame")));
    } else {
        out.push_str(&format!(" The trace has {}.</p>", some(frames.len(), "frame")));
    }
    out
}

/// A window on the page: the names, the picture beside them in a box that scrolls, and the sentences. Without a list, an empty one for the script.
fn window(run: &Run, k: usize, list: Option<&str>) -> String {
    let frames = run.window(k);
    let (width, height) = (run.width(&frames), run.height());
    let last = frames.end.max(1) - 1;
    let id = if list.is_some() { format!("w{k}") } else { "other".into() };
    let (heading, hidden) = match list {
        Some(_) => (format!("Frames {} to {last}", frames.start), ""),
        None => ("Frames".into(), " hidden"),
    };
    format!(
        "<section class=\"window\" id=\"{id}\"{hidden} aria-labelledby=\"{id}-h\">\n<h3 id=\"{id}-h\">{heading}</h3>\n\
         <div class=\"scroll picture\" style=\"--all:{}px\" tabindex=\"0\" role=\"group\" aria-label=\"picture\">\n\
         <svg class=\"names\" viewBox=\"0 0 {NAMES} {height}\" width=\"{NAMES}\" height=\"{height}\" style=\"--w:{NAMES}\" aria-hidden=\"true\">{}</svg>\n\
         <svg class=\"lanes\" viewBox=\"0 0 {width} {height}\" width=\"{width}\" height=\"{height}\" style=\"--w:{width}\" role=\"group\" \
         aria-labelledby=\"{id}-t {id}-d\"><title id=\"{id}-t\">{heading} of the run</title><desc id=\"{id}-d\">The numbers as steps, the guards that \
         hold with those who wait on each in order, and a lane for each thread: where it waits, by whom it is notified, and its frames. The list \
         below says the same.</desc>\
         <g class=\"drawn\">{}</g></svg>\n</div>\n<p class=\"now\" aria-hidden=\"true\" hidden>{HINT}</p>\n<ol class=\"frames\" start=\"{}\">\n{}</ol>\n</section>\n",
        NAMES + width,
        run.names(),
        list.map(draw).unwrap_or_default(),
        frames.start,
        list.map(sentences).unwrap_or_default(),
    )
}

/// What stands below a picture until a frame is pointed at.
const HINT: &str = "Point at a frame, or go to it by keyboard (Tab, then the arrow keys), to read it here.";

/// What the shapes mean.
const KEY: &str = "<ul class=\"small key\">\n\
<li><svg viewBox=\"0 0 40 24\" width=\"40\" height=\"24\" aria-hidden=\"true\"><circle class=\"ran\" cx=\"20\" cy=\"12\" r=\"9\"/>\
<text class=\"in\" x=\"20\" y=\"16\">01</text></svg> the body of region 01 runs</li>\n\
<li><svg viewBox=\"0 0 40 24\" width=\"40\" height=\"24\" aria-hidden=\"true\"><rect class=\"waits\" x=\"8\" y=\"1\" width=\"31\" height=\"22\" rx=\"3\"/>\
<circle class=\"came\" cx=\"10\" cy=\"12\" r=\"9\"/><text class=\"ring\" x=\"10\" y=\"16\">01</text></svg> it comes to region 01 and waits on its guard (g..)</li>\n\
<li><svg viewBox=\"0 0 40 24\" width=\"40\" height=\"24\" aria-hidden=\"true\"><rect class=\"waits\" x=\"1\" y=\"1\" width=\"38\" height=\"22\" rx=\"3\"/>\
<rect class=\"both\" x=\"1\" y=\"4\" width=\"38\" height=\"16\"/></svg> it waits and is notified in both machines</li>\n\
<li><svg viewBox=\"0 0 40 24\" width=\"40\" height=\"24\" aria-hidden=\"true\"><rect class=\"waits\" x=\"1\" y=\"1\" width=\"38\" height=\"22\" rx=\"3\"/>\
<rect class=\"one\" x=\"1\" y=\"2\" width=\"38\" height=\"9\"/><text class=\"who\" x=\"5\" y=\"10\">P</text></svg> notified in the plain machine only</li>\n\
<li><svg viewBox=\"0 0 40 24\" width=\"40\" height=\"24\" aria-hidden=\"true\"><rect class=\"waits\" x=\"1\" y=\"1\" width=\"38\" height=\"22\" rx=\"3\"/>\
<path class=\"came\" d=\"M20 12m-12 0l12 -12l12 12l-12 12z\"/><text class=\"ring\" x=\"20\" y=\"16\">01</text></svg> it rechecks, in vain</li>\n\
<li><svg viewBox=\"0 0 40 24\" width=\"40\" height=\"24\" aria-hidden=\"true\"><path class=\"due\" d=\"M4 1h24l9 11l-9 11h-24z\"/>\
<text class=\"says small\" x=\"9\" y=\"15\">due</text></svg> due at the next region: it goes next</li>\n\
<li><svg viewBox=\"0 0 40 24\" width=\"40\" height=\"24\" aria-hidden=\"true\"><path class=\"tells\" d=\"M10 1V22m-4 -5l4 5l4 -5\"/>\
<path class=\"tells some\" d=\"M30 1V22\"/><path class=\"tells\" d=\"M30 22m-4 -5l4 5l4 -5\"/></svg> a notice in both machines; broken: in one only</li>\n\
<li><svg viewBox=\"0 0 40 24\" width=\"40\" height=\"24\" aria-hidden=\"true\"><path class=\"rule\" d=\"M0 12H40\"/>\
<path class=\"cross\" d=\"M20 12m-7 -7l14 14m0 -14l-14 14\"/></svg> a refused frame; a thin line: idle</li>\n";

/// What a guard's line means, where anybody waits.
const LINES: &str = "<li><svg viewBox=\"0 0 40 24\" width=\"40\" height=\"24\" aria-hidden=\"true\"><path class=\"tail\" d=\"M2 12H40\"/>\
<path class=\"stands told\" d=\"M2 3h14v18h-14z\"/><text class=\"stood\" x=\"9\" y=\"15\">05</text>\
<path class=\"stands\" d=\"M16 3h14v18h-14z\"/><path class=\"half\" d=\"M16 3h14v4h-14z\"/><text class=\"stood\" x=\"23\" y=\"15\">00</text></svg> \
a guard's line: who waits on it, the earliest at the left</li>\n\
<li><svg viewBox=\"0 0 40 24\" width=\"40\" height=\"24\" aria-hidden=\"true\"><path class=\"gone\" d=\"M8 5l-6 7l6 7z\"/>\
<path class=\"stands\" d=\"M9 3h14v18h-14z\"/><text class=\"stood\" x=\"16\" y=\"15\">00</text><path class=\"stands\" d=\"M23 3h14v18h-14z\"/>\
<text class=\"stood\" x=\"30\" y=\"15\">01</text><path class=\"joined\" d=\"M23 3h14v18h-14z\"/></svg> \
its front has just gone; outlined: has just come</li>\n";

fn picture(run: &Run, sheet: &Sheet, begin: usize) -> String {
    let values: Vec<i16> = run.points.first().map_or_else(Vec::new, |point| point.values.to_vec());
    let own = if begin == sheet.outline.start { "the file's start values" } else { "not the file's start values" };
    let mut out = format!("<p>The run begins at state {begin}, {own}: {}.", escape(&sheet.state_text(&values)));
    let count = run.windows();
    if count == 0 {
        out.push_str(" The trace has no frames, so it also ends there.</p>\n");
        return out;
    }
    out.push_str(
        " Frames go to the right. What both machines have in common is drawn once; where their notices differ, the upper half of a bar is the \
         plain machine's and the lower half the table's.</p>\n",
    );
    if run.drawn() == MOST && run.points.len() > MOST + 1 {
        out.push_str(&format!("<p>Shown are the first {}.</p>\n", some(MOST, "frame")));
    }
    out.push_str(KEY);
    out.push_str(if run.has_lines() { LINES } else { "" });
    out.push_str("</ul>\n");
    let marked = |k: usize| run.marked.iter().any(|(frame, ..)| frame / WINDOW == k);
    let fixed = |k: usize| count <= WHOLE || k == 0 || k == count - 1 || marked(k);
    if count > WHOLE {
        let part = run.marked.first().map_or_else(String::new, |(k, ..)| {
            format!(
                "<button type=\"button\" data-frame=\"{k}\">{} (frame {k})</button>\n",
                if run.alone.is_some() { "Where they part" } else { "The refused frame" }
            )
        });
        out.push_str(&format!(
            "<noscript><p>The trace has {0}. Here are the first frames, the marked ones and the last; the others need script.</p></noscript>\n\
             <p class=\"print\">The trace has {0}. Printed are the first frames, the marked ones and the last.</p>\n\
             <form class=\"steps\" hidden data-frames=\"{1}\" data-window=\"{WINDOW}\">\n\
             <button type=\"button\" data-step=\"first\">First</button>\n<button type=\"button\" data-step=\"back\">Back</button>\n\
             <button type=\"button\" data-step=\"forward\">Forward</button>\n<button type=\"button\" data-step=\"last\">Last</button>\n{part}\
             <label>Frame <input type=\"number\" min=\"0\" max=\"{2}\" value=\"0\"></label>\n\
             <input type=\"range\" min=\"0\" max=\"{3}\" value=\"0\" aria-label=\"Window of frames\">\n\
             <output></output>\n</form>\n",
            some(run.drawn(), "frame"),
            run.drawn(),
            run.drawn() - 1,
            count - 1
        ));
    }
    let mut lists = String::new();
    for k in 0..count {
        let list = run.list(run.window(k));
        if fixed(k) {
            out.push_str(&window(run, k, Some(&list)));
        }
        if count > WHOLE {
            lists.push_str(&list);
            lists.push('\n');
        }
    }
    if count > WHOLE {
        out.push_str(&window(run, 0, None));
    }
    if count > WHOLE {
        out.push_str(&format!("<script type=\"text/plain\" id=\"shapes\">\n{}</script>\n", shapes()));
        let phrases = run.phrases();
        out.push_str(&format!("<script type=\"text/plain\" id=\"phrases\">\n{}\n</script>\n", phrases.join("\n")));
        out.push_str(&format!("<script type=\"text/plain\" id=\"windows\">\n{}</script>\n", packed(&lists, &phrases)));
    }
    out
}

/// Where the threads are at a point, in words.
fn places(sheet: &Sheet, point: &Point) -> String {
    let place = |t: u8| match point.places[usize::from(t)] {
        Place::Idle => None,
        Place::Waiting(region) => Some(format!("thread {} waits at {}", pair(t), sheet.region_name(region.into()))),
        Place::Due(region) => Some(format!("thread {} is due at {}", pair(t), sheet.region_name(region.into()))),
    };
    let all: Vec<String> = (0..16).filter_map(place).collect();
    if all.is_empty() {
        "all threads are idle".into()
    } else {
        words::listed(&all)
    }
}

/// Who waits on each guard at a point, the earliest first; nothing where nobody waits.
fn lines(sheet: &Sheet, point: &Point) -> String {
    let on = |g: usize| {
        let line: Vec<String> = point.line(&sheet.outline, g).into_iter().map(pair).collect();
        (!line.is_empty()).then(|| format!("g{}: {}", pair(g as u8), line.join(", ")))
    };
    (0..sheet.outline.guards).filter_map(on).collect::<Vec<_>>().join("; ")
}

fn answers(sheet: &Sheet, trace: &[u8], begin: usize, points: &Points) -> String {
    let mut out = String::from("<div class=\"pair\">\n");
    for (machine, heading, refused) in
        [(Machine::Plain, "The plain machine", points.plain), (Machine::Table, "The table’s machine", points.table)]
    {
        out.push_str(&format!("<section>\n<h3>{heading}</h3>\n<p><b>It {}.</b></p>\n", answer(&refused)));
        match (refused, points.points.last()) {
            (Ok(()), Some(point)) => {
                let notified = match machine {
                    Machine::Plain => point.plain.notified,
                    Machine::Table => point.table.map_or(0, |table| table.notified),
                };
                let notified = if notified == 0 { "nobody".into() } else { words::threads(notified) };
                let lines = match lines(sheet, point) {
                    none if none.is_empty() => none,
                    lines => format!("<dt>in line</dt><dd>{lines}</dd>\n"),
                };
                out.push_str(&format!(
                    "<dl>\n<dt>values at the end</dt><dd>{}</dd>\n<dt>threads</dt><dd>{}</dd>\n{lines}<dt>notified</dt><dd>{notified}</dd>\n</dl>\n",
                    escape(&sheet.state_text(&point.values)),
                    escape(&places(sheet, point))
                ));
            }
            (Err(refusal), _) => {
                let refused: Refused = words::run_refusal(sheet, trace, begin, &points.points, machine, &refusal);
                out.push_str(&refused_html(&refused));
            }
            (Ok(()), None) => {}
        }
        out.push_str("</section>\n");
    }
    out.push_str("</div>\n");
    out
}

fn runner_lines(sheet: &Sheet, trace: &[u8]) -> String {
    let lines = damsonyet::runner_lines(sheet.file, &trace[..trace.len().min(READ)]);
    let cut = if trace.len() > READ { format!(" It reads the first {} of a trace.", some(READ, "byte")) } else { String::new() };
    let lines: String = lines.split(|&byte| byte == b'\n').map(|line| bytes(line) + "\n").collect();
    format!(
        "<h3>What runner prints</h3>\n<p>The plain machine's line, then the table's.{cut}</p>\n\
         <pre class=\"scroll\" tabindex=\"0\">{}</pre>\n",
        lines.trim_end()
    )
}
