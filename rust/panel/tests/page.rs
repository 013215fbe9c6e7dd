//! The page: well-formed, complete, escaped, small enough, and what it draws against the library's points.
use damsonyet::{Place, Point};
use panel::frames::frames;
use panel::page::{page, Input};
use panel::pairs::Touched;
use panel::sheet::Sheet;
use panel::words;
use std::fs;
use std::path::{Path, PathBuf};

fn examples() -> PathBuf {
    Path::new(env!("CARGO_MANIFEST_DIR")).join("../../examples")
}

/// Every folder with a monitor.txt below the examples, in order, with its monitor files and its traces.
fn hand_ins() -> Vec<(String, Vec<u8>, Option<Vec<u8>>)> {
    let mut out = Vec::new();
    for folder in [examples(), examples().join("refusals")] {
        let mut folders: Vec<PathBuf> = fs::read_dir(folder).unwrap().map(|entry| entry.unwrap().path()).collect();
        folders.sort();
        for folder in folders.iter().filter(|folder| folder.join("monitor.txt").exists()) {
            let mut names: Vec<String> = fs::read_dir(folder).unwrap().map(|e| e.unwrap().file_name().into_string().unwrap()).collect();
            names.sort();
            let traces: Vec<&String> = names.iter().filter(|name| name.starts_with("trace")).collect();
            let read = |name: &str| fs::read(folder.join(name)).unwrap();
            let called = folder.file_name().unwrap().to_string_lossy().into_owned();
            for monitor in names.iter().filter(|name| name.starts_with("monitor")) {
                out.push((format!("{called}/{monitor}"), read(monitor), None));
                out.extend(traces.iter().map(|name| (format!("{called}/{monitor}/{name}"), read(monitor), Some(read(name)))));
            }
        }
    }
    assert!(out.len() > 40, "the examples are there");
    out
}

fn made(file: &[u8], trace: Option<&[u8]>) -> String {
    page(&Input { file, file_name: "monitor.txt", trace: trace.map(|trace| (trace, "trace.txt")), start: None })
}

fn example(folder: &str, trace: &str) -> (Vec<u8>, Vec<u8>) {
    let folder = examples().join(folder);
    (fs::read(folder.join("monitor.txt")).unwrap(), fs::read(folder.join(trace)).unwrap())
}

fn escaped(text: &str) -> String {
    text.replace('&', "&amp;").replace('<', "&lt;").replace('>', "&gt;").replace('"', "&quot;").replace('\'', "&#39;")
}

/// What is wrong with a text as HTML: tags that do not nest, attributes without quotes, an ampersand that begins no reference.
fn flaw(html: &str) -> Option<String> {
    const VOID: [&str; 2] = ["meta", "input"];
    let mut open: Vec<&str> = Vec::new();
    let mut rest = html.strip_prefix("<!DOCTYPE html>\n")?;
    while let Some(at) = rest.find('<') {
        let text = &rest[..at];
        if text.contains('>') {
            return Some(format!("a lone > in {text:?}"));
        }
        for (k, _) in text.match_indices('&') {
            let end = text[k..].find(';').filter(|end| *end < 8);
            if end.is_none() {
                return Some(format!("a lone & in {text:?}"));
            }
        }
        rest = &rest[at + 1..];
        let Some(end) = rest.find('>') else { return Some("a tag that does not end".into()) };
        let tag = &rest[..end];
        rest = &rest[end + 1..];
        if let Some(name) = tag.strip_prefix('/') {
            match open.pop() {
                Some(last) if last == name => continue,
                last => return Some(format!("</{name}> closes {last:?}")),
            }
        }
        let name = tag.split([' ', '/', '\n']).next().unwrap_or_default();
        if name.is_empty() || !name.bytes().all(|byte| byte.is_ascii_alphanumeric()) {
            return Some(format!("an odd tag: <{tag}>"));
        }
        let quotes = tag.matches('"').count();
        if quotes % 2 == 1 || tag.split('"').step_by(2).any(|outside| outside.contains('=') && !outside.ends_with('=')) {
            return Some(format!("an attribute without quotes: <{tag}>"));
        }
        if tag.ends_with('/') || VOID.contains(&name) {
            continue;
        }
        if name == "style" || name == "script" {
            let close = format!("</{name}>");
            let Some(end) = rest.find(&close) else { return Some(format!("no {close}")) };
            rest = &rest[end + close.len()..];
            continue;
        }
        open.push(name);
    }
    (!open.is_empty() || rest != "\n").then(|| format!("open at the end: {open:?}, behind it {rest:?}"))
}

#[test]
fn the_flaw_finder_finds() {
    let around = |inside: &str| flaw(&format!("<!DOCTYPE html>\n<html>{inside}</html>\n"));
    assert_eq!(around("<p>a &lt; b</p>"), None);
    for bad in ["<p>", "</p>", "<p><b></p></b>", "<p class=a></p>", "<p>a & b</p>", "<p>a > b</p>", "<p class=\"a></p>"] {
        assert!(around(bad).is_some(), "{bad}");
    }
}

#[test]
fn pages_of_the_examples_are_well_formed_and_always_the_same() {
    for (name, file, trace) in hand_ins() {
        let html = made(&file, trace.as_deref());
        assert_eq!(flaw(&html), None, "{name}");
        assert_eq!(html, made(&file, trace.as_deref()), "{name}");
        let ids: Vec<&str> = html.split(" id=\"").skip(1).filter_map(|rest| rest.split('"').next()).collect();
        for (k, id) in ids.iter().enumerate() {
            assert!(!ids[..k].contains(id), "{name}: the id {id} is there twice");
        }
        for to in html.split("href=\"#").skip(1).filter_map(|rest| rest.split('"').next()) {
            assert!(ids.contains(&to), "{name}: a link to #{to}, which is not there");
        }
    }
}

#[test]
fn nothing_comes_from_elsewhere() {
    for (name, file, trace) in hand_ins() {
        let html = made(&file, trace.as_deref()).to_ascii_lowercase();
        for bad in
            ["http:", "https:", "src=", "@import", "<link", "<iframe", "<object", "<embed", "<base", "javascript:", " onload", " onclick"]
        {
            assert!(!html.contains(bad), "{name}: {bad}");
        }
        assert_eq!(html.matches("url(").count(), html.matches("url(#").count(), "{name}");
        assert!(html.contains("content=\"default-src 'none'; "), "{name}");
    }
}

#[test]
fn every_frame_and_entry_has_its_sentence() {
    for (name, file, trace) in hand_ins() {
        let html = made(&file, trace.as_deref());
        let Ok(table) = damsonyet::place(&file) else { continue };
        let sheet = Sheet::new(&file, damsonyet::outline(&file).unwrap().0);
        for entry in &table.entries {
            assert!(html.contains(&escaped(&words::entry(&sheet, entry))), "{name}: {entry:?}");
        }
        let Some(trace) = trace else { continue };
        let Ok(points) = damsonyet::points(&file, &trace, damsonyet::start_state(&file)) else { continue };
        for (k, frame) in frames(&trace).iter().enumerate().take(points.points.len()) {
            let says = escaped(&words::frame(&sheet, frame, &points.points[k], points.points.get(k + 1)));
            let item = format!("<b>{k}</b> <code>{}</code></a><span>{says}", frame.text());
            assert!(html.contains(&item), "{name}: frame {k}: {item}");
        }
        assert!(!html.contains("..</em>") && !html.contains("..</p>"), "{name}: two full stops");
        let lines = String::from_utf8(damsonyet::runner_lines(&file, &trace)).unwrap();
        assert!(html.contains(lines.trim_end()), "{name}: the runner's lines");
    }
}

#[test]
fn refused_files_show_the_place() {
    for (name, file, trace) in hand_ins() {
        let Err(refusal) = damsonyet::check(&file) else { continue };
        let html = made(&file, trace.as_deref());
        let refused = words::refusal(&file, &refusal);
        for text in [&refused.headline, &refused.remedy] {
            assert!(html.contains(&escaped(text)), "{name}: {text}");
        }
        assert_eq!(html.contains("id=\"refused\""), matches!(refusal.number, 2..=8 | 15), "{name}");
        assert_eq!(html.contains("class=\"body broken\""), refusal.number == 9, "{name}");
        assert!(!html.contains("id=\"table\"") && !html.contains("id=\"run\""), "{name}: a refused file has no table and no run");
    }
}

/// The grid of touched pairs: a cell a pair, hatched, with a dot or with the entry's mark, as the library's count and entries have it.
#[test]
fn touched_pairs_have_their_cells() {
    let [mut bare, mut dots, mut marks] = [0; 3];
    let none = b"monitor m { var x = 0 in 0..1; keep true; method a { waituntil (x == 0) { } } }".to_vec();
    let more = [("crowded".to_string(), crowded(), None), ("none".to_string(), none, None)];
    for (name, file, _) in hand_ins().into_iter().filter(|(_, _, trace)| trace.is_none()).chain(more) {
        let html = made(&file, None);
        let Ok(table) = damsonyet::place(&file) else {
            assert!(!html.contains("<table class=\"pairs\">") && !html.contains("Touched pairs"), "{name}");
            continue;
        };
        let sheet = Sheet::new(&file, damsonyet::outline(&file).unwrap().0);
        let (regions, guards) = (sheet.outline.regions.len(), sheet.outline.guards);
        assert!(html.contains(&format!("<b>{}</b>", panel::pairs::count(&sheet.outline, &table))), "{name}");
        let touched = Touched::of(&sheet, &table).unwrap();
        let grid = html.split("<table class=\"pairs\">").nth(1).unwrap().split("</table>").next().unwrap();
        let rows: Vec<&str> = grid.split("<tr>").skip(1).collect();
        assert_eq!(rows.len(), regions + 1, "{name}");
        for g in 0..guards {
            let head = format!("<th scope=\"col\" title=\"guard {g:02X}: {}\">g{g:02X}</th>", escaped(&sheet.guard_text(g)));
            assert!(rows[0].contains(&head), "{name}: {head}");
        }
        for (r, row) in rows[1..].iter().enumerate() {
            let title = format!("region {r:02X}, {}: {}", sheet.region_name(r), sheet.body_text(r));
            assert!(row.starts_with(&format!("<th scope=\"row\" title=\"{}\">r{r:02X}</th>", escaped(&title))), "{name}: {row}");
            let cells: Vec<&str> = row.split("<td").skip(1).collect();
            assert_eq!(cells.len(), guards, "{name}");
            for (g, cell) in cells.iter().enumerate() {
                let entry = table.entries.iter().find(|entry| (usize::from(entry.region), usize::from(entry.guard)) == (r, g));
                let (says, shape) = match entry.map(|entry| (entry.broadcast, entry.unconditional)) {
                    _ if touched.by(r, g) == 0 => ("not touched", " class=\"bare\""),
                    None => ("touched, no entry", "&#8226;"),
                    Some((false, true)) => ("touched, signal, always", "#signal"),
                    Some((false, false)) => ("touched, signal, if it holds", "#signal"),
                    Some((true, true)) => ("touched, broadcast, always", "#broadcast"),
                    Some((true, false)) => ("touched, broadcast, if it holds", "#broadcast"),
                };
                let here = format!("{name}: region {r}, guard {g}: {cell}");
                assert!(cell.contains(shape) && cell.contains(&format!("hidden\">{says}</span>")), "{here}");
                assert_eq!(cell.contains("mark asks"), entry.is_some_and(|entry| !entry.unconditional), "{here}");
                for (k, variable) in sheet.outline.variables.iter().enumerate() {
                    let by = touched.by(r, g) >> k & 1 == 1;
                    let named = String::from_utf8_lossy(sheet.bytes(&variable.name)).into_owned();
                    let title = cell.split('"').find(|part| part.contains(" assigns ")).unwrap();
                    let listed = title.split(" assigns ").nth(1).unwrap().split(", which").next().unwrap();
                    assert_eq!(listed.split([',', ' ']).any(|word| word == named), by, "{here}");
                }
            }
        }
        let count = |what: &str| grid.matches(what).count();
        let pairs = usize::from(table.pairs);
        let cells = (count("class=\"bare\""), count("&#8226;"), count("<use "));
        assert_eq!(cells, (regions * guards - pairs, pairs - table.entries.len(), table.entries.len()), "{name}");
        (bare, dots, marks) = (bare + cells.0, dots + cells.1, marks + cells.2);
    }
    assert!(bare > 50 && dots > 50 && marks > 50, "{bare} {dots} {marks}");
}

/// Box and breaker as before; and of a file with tries each one's mark, condition and reason, and the steps as the library's states have them.
#[test]
fn tries_have_their_marks_and_steps() {
    let (mut marked, mut steps) = (0, 0);
    let many: String = (1..=16).map(|k| format!("try x\t!= {k}\n&& !(x > {k} &&\r\n x < {k});")).collect();
    let chain =
        format!("monitor m {{ var x = 0 in 0..16; keep true; {many} method up {{ waituntil (x < 16) {{ x := x + 1; }} }} }}").into_bytes();
    // Refused with 8, no fates are told.
    let refused = b"monitor m { var x = 0 in 0..1; keep x == 1; try x < 2; method a { waituntil (true) { } } }".to_vec();
    for (name, file, trace) in hand_ins().into_iter().chain([("chain".into(), chain, None), ("refused with 8".into(), refused, None)]) {
        let html = made(&file, trace.as_deref());
        let fates = damsonyet::fates(&file).unwrap_or_default();
        assert_eq!(html.contains("id=\"tries\""), !fates.is_empty(), "{name}");
        let Ok((outline, _)) = damsonyet::outline(&file) else {
            assert!(!html.contains("class=\"try"), "{name}");
            continue;
        };
        assert_eq!(html.contains("class=\"try"), !outline.tries.is_empty(), "{name}");
        if fates.is_empty() {
            assert!(!html.contains("tries:"), "{name}");
            continue;
        }
        let sheet = Sheet::new(&file, outline);
        let part = html.split("<ol class=\"tries\">").nth(1).unwrap().split("</ol>").next().unwrap();
        let items: Vec<&str> = part.split("<li class=").skip(1).collect();
        assert_eq!(items.len(), fates.len(), "{name}");
        for (k, (item, fate)) in items.iter().zip(&fates).enumerate() {
            // In the file its condition is marked too, from its first line on.
            let (class, mark, says) = match fate {
                damsonyet::Fate::Chosen => ("yes", '✓', "chosen"),
                damsonyet::Fate::FalseAtStart => ("no", '✗', "false at the start values"),
                damsonyet::Fate::Broken { .. } => ("no", '✗', "broken"),
            };
            let text = String::from_utf8_lossy(&file[sheet.outline.tries[k].clone()]).trim().replace('\t', " ");
            let text = escaped(text.lines().next().unwrap());
            let marked_as = format!("<span class=\"try {class}\" data-tag=\"t{k:02X} {mark}\" title=\"try {k:02X}, {says}\">{text}</span>");
            assert!(html.contains(&marked_as), "{name}: {marked_as}");
            let condition = format!("<span class=\"number\">t{k:02X}</span> <code>{}</code>", escaped(&sheet.try_text(k)));
            assert!(item.contains(&condition), "{name}: {condition} in {item}");
            let shown: String =
                item.replace("</span>", " ").split('<').filter_map(|part| part.split_once('>')).map(|(_, text)| text).collect();
            let values = |values: &[i16]| {
                let named = values.iter().enumerate().map(|(v, value)| format!("{} {value} ", sheet.variable_name(v)));
                named.collect::<String>()
            };
            let state = |number: u16| damsonyet::state_at(&file, number.into()).unwrap().unwrap();
            match *fate {
                damsonyet::Fate::Chosen => {
                    assert!(item.starts_with("\"yes\"><b class=\"fate\">chosen</b>") && !item.contains("values"), "{name}")
                }
                damsonyet::Fate::FalseAtStart => {
                    assert!(item.starts_with("\"no\"><b class=\"fate\">false at the start</b>"), "{name}");
                    assert!(shown.contains(&format!("start values: {}", values(&sheet.start_values()))), "{name}: {shown}");
                }
                damsonyet::Fate::Broken { pass, region, state: from } => {
                    assert!(
                        item.starts_with("\"no\"><b class=\"fate\">broken</b>") && shown.contains(&format!("pass {pass} by ")),
                        "{name}"
                    );
                    let before = state(from);
                    let Some(damsonyet::Outcome::Ends(to)) = before.after[usize::from(region)] else { panic!("{name}: it ends") };
                    let after = state(to);
                    assert!(shown.contains(&format!("state {from}: {}", values(&before.values))), "{name}: {shown}");
                    assert!(shown.contains(&format!("state {to}: {}", values(&after.values))), "{name}: {shown}");
                    let changed = before.values.iter().zip(&after.values).filter(|(a, b)| a != b).count();
                    assert_eq!(item.matches("class=\"changed\"").count(), changed, "{name}");
                    steps += 1;
                }
            }
            marked += 1;
        }
    }
    assert!(marked >= 27 && steps >= 20, "{marked} {steps}");
}

/// How often a run of points that are alike begins, of those that are asked for.
fn begins<T: PartialEq>(points: &[Point], of: impl Fn(&Point) -> T, asked: impl Fn(&T) -> bool) -> usize {
    let values: Vec<T> = points.iter().map(of).collect();
    (0..values.len()).filter(|&k| asked(&values[k]) && (k == 0 || values[k] != values[k - 1])).count()
}

#[test]
fn what_is_drawn_is_what_the_points_say() {
    let mut drawn = 0;
    for (name, file, trace) in hand_ins() {
        let Some(trace) = trace else { continue };
        let Ok(points) = damsonyet::points(&file, &trace, damsonyet::start_state(&file)) else { continue };
        let all = frames(&trace);
        if all.is_empty() || all.len() > 24 {
            continue;
        }
        drawn += 1;
        let html = made(&file, Some(&trace));
        let picture = html.split("<g class=\"drawn\">").nth(1).and_then(|rest| rest.split("</svg>").next()).unwrap();
        let has = |class: &str| picture.matches(&format!("class=\"{class}\"")).count();
        let ps = &points.points;
        let sum = |count: &dyn Fn(usize) -> usize| (0..16).map(count).sum::<usize>();
        let waits = sum(&|t| begins(ps, |p| p.places[t], |place| matches!(place, Place::Waiting(_))));
        let due = sum(&|t| begins(ps, |p| p.places[t], |place| matches!(place, Place::Due(_))));
        let notices = |t: usize| move |p: &Point| (p.plain.notified >> t & 1 == 1, p.table.is_some_and(|n| n.notified >> t & 1 == 1));
        let both = sum(&|t| begins(ps, notices(t), |has| *has == (true, true)));
        let one = sum(&|t| begins(ps, notices(t), |has| has.0 != has.1));
        assert_eq!((has("waits"), has("due"), has("both"), has("one")), (waits, due, both, one), "{name}");
        lines_are_drawn(&name, &file, ps, picture);
        let taken = &all[..ps.len() - 1];
        assert_eq!(has("ran"), taken.iter().filter(|frame| frame.flag).count(), "{name}");
        assert_eq!(has("came"), taken.iter().filter(|frame| !frame.flag).count(), "{name}");
        assert_eq!(has("cross"), usize::from(points.plain.is_err()), "{name}");
        let told = ps.iter().map(|p| p.plain.told | p.table.map_or(0, |n| n.told)).map(u16::count_ones).sum::<u32>() as usize;
        assert_eq!(has("tells"), told, "{name}");
        let values = sum(&|k| if k < 6 { begins(ps, |p| p.values[k], |_| true) } else { 0 });
        let without = 6 - damsonyet::outline(&file).unwrap().0.variables.len();
        assert_eq!(has("digit"), values - without, "{name}");
        assert_eq!(has("alone"), usize::from(points.plain != points.table), "{name}");
    }
    assert!(drawn > 15);
}

/// The lines: boxes for all who wait on a guard wherever its line or a notice changes, and each change marked.
fn lines_are_drawn(name: &str, file: &[u8], points: &[Point], picture: &str) {
    let outline = damsonyet::outline(file).unwrap().0;
    let [mut groups, mut alone, mut both, mut half, mut joined, mut gone] = [0; 6];
    for g in 0..outline.guards {
        let line = |p: &Point| {
            let has = |set: u16, t: u8| set >> t & 1 == 1;
            let notices = |t: u8| (t, has(p.plain.notified, t), p.table.is_some_and(|table| has(table.notified, t)));
            p.line(&outline, g).into_iter().map(notices).collect::<Vec<_>>()
        };
        let mut last = Vec::new();
        for now in points.iter().map(line) {
            let is_in = |line: &[(u8, bool, bool)], t: u8| line.iter().any(|waiter| waiter.0 == t);
            if now != last {
                groups += usize::from(!now.is_empty());
                both += now.iter().filter(|(_, plain, table)| *plain && *table).count();
                half += now.iter().filter(|(_, plain, table)| plain != table).count();
                alone += now.iter().filter(|(_, plain, table)| !(*plain && *table)).count();
                joined += now.iter().filter(|waiter| !is_in(&last, waiter.0)).count();
                gone += usize::from(last.first().is_some_and(|front| !is_in(&now, front.0)));
            }
            last = now;
        }
    }
    let has = |mark: &str| picture.matches(mark).count();
    let drawn = ["class=\"stands\"", "class=\"stands told\"", "class=\"half\"", "class=\"joined\"", "class=\"gone\""].map(has);
    assert_eq!(drawn, [alone, both, half, joined, gone], "{name}");
    assert_eq!(has("<g role=\"img\" aria-label=\"line on g"), groups, "{name}");
}

/// The elements of a class in a picture, each as its tag's text and the text behind it.
fn elements<'a>(picture: &'a str, class: &str) -> Vec<(&'a str, &'a str)> {
    let mark = format!(" class=\"{class}\"");
    picture.split('<').filter(|part| part.contains(&mark)).filter_map(|part| part.split_once('>')).collect()
}

/// An attribute that is a whole number.
fn number(tag: &str, name: &str) -> i32 {
    let rest = tag.split(&format!(" {name}=\"")).nth(1).unwrap_or_else(|| panic!("no {name} in <{tag}>"));
    rest.split('"').next().unwrap().parse().unwrap()
}

/// The numbers of a path, each with its letter.
fn path(tag: &str) -> Vec<(char, i32)> {
    let d = tag.split(" d=\"").nth(1).unwrap().split('"').next().unwrap();
    let mut out = Vec::new();
    let mut letter = ' ';
    for part in d.split_inclusive(|c: char| !c.is_ascii_digit() && c != '-') {
        let (digits, last) = part.split_at(part.len() - part.chars().last().filter(|c| !c.is_ascii_digit()).map_or(0, char::len_utf8));
        if let Ok(n) = digits.parse() {
            out.push((letter, n));
        }
        letter = last.chars().next().unwrap_or(' ');
    }
    out
}

/// Reads a picture back, by where things stand beside the names and under the frames' numbers, and compares it with the points.
#[test]
fn a_picture_can_be_read_back() {
    let all = hand_ins().into_iter().filter_map(|(name, file, trace)| Some((name, file, trace?)));
    let busy = [("busy".to_string(), crowded(), busy(24))];
    let mut read = 0;
    for (name, file, trace) in all.chain(busy) {
        let Ok(points) = damsonyet::points(&file, &trace, damsonyet::start_state(&file)) else { continue };
        let frames = frames(&trace);
        let html = made(&file, Some(&trace));
        let Some((names, rest)) = html.split_once("<svg class=\"names\"").and_then(|(_, rest)| rest.split_once("</svg>")) else { continue };
        let picture = rest.split("</svg>").next().unwrap();
        if picture.matches("class=\"frame\"").count() < frames.len().min(points.points.len()) {
            continue;
        }
        read += 1;
        let outline = damsonyet::outline(&file).unwrap().0;
        // Where the frames stand, and between them the points.
        let events: Vec<i32> = elements(picture, "frame")
            .iter()
            .enumerate()
            .map(|(k, (tag, _))| {
                assert!(tag.contains(&format!("id=\"f{k}\"")), "{name}");
                let rect = picture.split(tag).nth(1).unwrap().split("<rect").nth(1).unwrap();
                number(rect, "x") + number(rect, "width") / 2
            })
            .collect();
        let at = |p: usize| match (p.checked_sub(1).map(|k| events[k]), events.get(p)) {
            (None, Some(&next)) => next / 2,
            (Some(last), Some(&next)) => (last + next) / 2,
            (last, None) => last.unwrap() + 12,
        };
        let rects = |class: &str| -> Vec<[i32; 4]> {
            elements(picture, class).iter().map(|(tag, _)| ["x", "y", "width", "height"].map(|side| number(tag, side))).collect()
        };
        let covers =
            |rects: &[[i32; 4]], x: i32, y: i32| rects.iter().any(|[l, t, w, h]| (*l..l + w).contains(&x) && (*t..t + h).contains(&y));
        let (waits, both, one) = (rects("waits"), rects("both"), rects("one"));
        // The boxes of a line are moved to its place: where each is, and whose it is.
        let mut boxes: Vec<(i32, i32, u8)> = Vec::new();
        for line in picture.split("transform=\"translate(").skip(1) {
            let (to, rest) = line.split_once(")\">").unwrap();
            let to: Vec<i32> = to.split(' ').map(|n| n.parse().unwrap()).collect();
            let one =
                |(tag, text): &(&str, &str)| (to[0] + number(tag, "x"), to[1] + number(tag, "y"), u8::from_str_radix(text, 16).unwrap());
            boxes.extend(elements(rest.split("</g>").next().unwrap(), "stood").iter().map(one));
        }
        let tails: Vec<[i32; 3]> = elements(picture, "tail").iter().map(|(tag, _)| path(tag)).map(|d| [d[0].1, d[1].1, d[2].1]).collect();
        let due: Vec<[i32; 4]> =
            elements(picture, "due").iter().map(|(tag, _)| path(tag)).map(|d| [d[0].1, d[1].1, d[2].1 + 9, 22]).collect();
        let lanes: Vec<(usize, i32)> = elements(names, "name")
            .iter()
            .filter_map(|(tag, text)| Some((usize::from_str_radix(text.strip_prefix("thread ")?, 16).ok()?, number(tag, "y") - 4)))
            .collect();
        for (p, point) in points.points.iter().enumerate() {
            let x = at(p);
            for &(t, y) in &lanes {
                let here = format!("{name}: point {p}, thread {t}");
                assert_eq!(covers(&waits, x, y), matches!(point.places[t], Place::Waiting(_)), "{here}");
                assert_eq!(covers(&due, x, y), matches!(point.places[t], Place::Due(_)), "{here}");
                let plain = point.plain.notified >> t & 1 == 1;
                let table = point.table.is_some_and(|notices| notices.notified >> t & 1 == 1);
                assert_eq!(covers(&both, x, y), plain && table, "{here}");
                assert_eq!(covers(&one, x, y - 5), plain && !table, "{here}");
                assert_eq!(covers(&one, x, y + 5), table && !plain, "{here}");
            }
            // Who waits on each guard: the boxes of the last change over its bar, row by row.
            for (g, (tag, _)) in elements(names, "guards").iter().enumerate() {
                let bar = number(tag, "y") - 4;
                let above = if g == 0 { 0 } else { number(elements(names, "guards")[g - 1].0, "y") };
                let here: Vec<_> = boxes.iter().filter(|(_, top, _)| (above..bar).contains(top)).collect();
                let tail = tails.iter().find(|[from, at, to]| (above..bar).contains(at) && (*from..*to).contains(&x));
                let mut shown: Vec<(i32, i32, u8)> = match tail {
                    None => Vec::new(),
                    Some([from, _, to]) => here.iter().filter(|b| (*from..*to).contains(&b.0)).map(|b| (b.1, b.0, b.2)).collect(),
                };
                assert!(shown.iter().all(|(top, ..)| top + 18 <= bar - 3), "{name}: point {p}, guard {g}: boxes over the bar");
                shown.sort();
                let shown: Vec<u8> = shown.into_iter().map(|(_, _, thread)| thread).collect();
                assert_eq!(shown, point.line(&outline, g), "{name}: point {p}, guard {g}");
            }
            // The guards: a line of pieces beside each that holds anywhere.
            let pieces: Vec<[i32; 3]> = elements(picture, "holds")
                .iter()
                .flat_map(|(tag, _)| path(tag).chunks(3).map(|m| [m[0].1, m[1].1, m[2].1]).collect::<Vec<_>>())
                .collect();
            for (g, (tag, _)) in elements(names, "guards").iter().enumerate() {
                let y = number(tag, "y") - 4;
                let drawn = pieces.iter().any(|[from, at, to]| *at == y && (*from..*to).contains(&x));
                assert_eq!(drawn, point.guards >> g & 1 == 1, "{name}: point {p}, guard {g}");
            }
            // The numbers: the height of each line between those of its bounds.
            let bounds = elements(names, "bound");
            for (k, variable) in outline.variables.iter().enumerate() {
                let (top, bottom) = (number(bounds[2 * k].0, "y") - 4, number(bounds[2 * k + 1].0, "y") - 4);
                let steps = path(elements(picture, "value")[k].0);
                let y = steps.chunks(3).find(|step| (step[0].1..step[2].1).contains(&x)).unwrap()[1].1;
                let size = i32::from(variable.high - variable.low).max(1);
                assert_eq!(
                    bottom - y,
                    i32::from(point.values[k] - variable.low) * (bottom - top) / size,
                    "{name}: point {p}, variable {k}"
                );
            }
        }
        // The frames: a disc, a ring, a diamond or a cross on the lane of the frame's thread.
        for (k, frame) in frames.iter().enumerate().take(events.len()) {
            let y = lanes.iter().find(|(t, _)| *t == usize::from(frame.thread)).unwrap().1;
            let circle = |class: &str| {
                elements(picture, class)
                    .iter()
                    .any(|(tag, _)| tag.contains("cx=") && (number(tag, "cx"), number(tag, "cy")) == (events[k], y))
            };
            let shape = |class: &str| elements(picture, class).iter().any(|(tag, _)| tag.contains(&format!("d=\"M{} {y}m", events[k])));
            let waited = matches!(points.points[k].places[usize::from(frame.thread)], Place::Waiting(_));
            let drawn = (circle("ran"), circle("came"), shape("came"), shape("cross"));
            let taken = k + 1 < points.points.len();
            let right = (taken && frame.flag, taken && !frame.flag && !waited, taken && !frame.flag && waited, !taken);
            assert_eq!(drawn, right, "{name}: frame {k}");
        }
    }
    assert!(read > 15, "{read}");
}

#[test]
fn the_frame_where_they_part_is_marked_and_said() {
    let (file, trace) = example("box", "trace-plain-only.txt");
    let html = made(&file, Some(&trace));
    assert!(html.contains("<b>The machines part at <a href=\"#f4\">frame 4</a>.</b>"));
    assert!(html.contains("<li id=\"s4\" class=\"marked\">") && html.matches("class=\"marked\"").count() == 1);
    assert!(html.contains("they part: the table’s machine stops, 14</text>"));
    let (file, trace) = example("box", "trace.txt");
    assert!(!made(&file, Some(&trace)).contains("class=\"marked\""));
}

#[test]
fn another_start_is_told_and_has_no_runner_lines() {
    let (file, _) = example("round-robin", "trace.txt");
    let with = |start| page(&Input { file: &file, file_name: "m", trace: Some((b"010101\n", "t")), start: Some(start) });
    assert!(with(1).contains("The run begins at state 1, not the file's start values: turn = 1."));
    assert!(!with(1).contains("What runner prints") && with(0).contains("What runner prints"));
    for bad in [3, 4, usize::MAX] {
        let html = with(bad);
        assert_eq!(flaw(&html), None);
        assert!(html.contains("<b>Not run.</b>") && html.contains("11: "), "{bad}");
    }
}

#[test]
fn of_a_path_the_folder_and_the_name_are_shown() {
    for (path, shown) in
        [("/a/b/ann/monitor.txt", "ann/monitor.txt"), ("ann/monitor.txt", "ann/monitor.txt"), ("m", "m"), ("/m", "/m"), ("-", "-")]
    {
        let html = page(&Input { file: b"", file_name: path, trace: None, start: None });
        assert!(html.contains(&format!("<h1>{shown}</h1>")), "{path}");
    }
}

/// Numbers that look random, the same in every run.
struct Dice(u64);

impl Dice {
    fn roll(&mut self, sides: usize) -> usize {
        self.0 = self.0.wrapping_mul(6364136223846793005).wrapping_add(1442695040888963407);
        (self.0 >> 33) as usize % sides
    }
}

/// No byte of a hand-in is on the page but printable ones, escaped.
fn clean(html: &str) {
    assert_eq!(flaw(html), None);
    for c in html.chars() {
        assert!(matches!(c, '\n' | '\t' | ' '..='~' | '·' | '…' | '’' | '✓' | '✗' | '≠' | '\u{E000}'..='\u{E0FF}'), "{c:?}");
    }
    assert!(html.matches("<script").count() <= 4 && html.matches("<img").count() == 0);
}

#[test]
fn hostile_bytes_are_shown_and_do_nothing() {
    let (good, _) = example("box", "trace.txt");
    let (guesses, _) = example("breaker-guesses", "trace.txt");
    let mut dice = Dice(7);
    let hostile: &[u8] =
        b"</script><script>alert(1)</script><img src=x onerror=alert(2)>\x00\x1B]0;x\x07<!-- & \" ' ]]> \xFF\xFE\xE2\x80\xAE";
    for k in 0..200 {
        let mut file = match k % 4 {
            0 => good.clone(),
            1 => guesses.clone(),
            _ => Vec::new(),
        };
        for _ in 0..dice.roll(9) {
            let at = dice.roll(file.len() + 1);
            match dice.roll(3) {
                0 => file.insert(at, dice.roll(256) as u8),
                1 => file.truncate(at),
                _ => drop(file.splice(at..at, hostile.iter().copied())),
            }
        }
        let trace: Vec<u8> =
            (0..dice.roll(40)).map(|_| if dice.roll(4) > 0 { b"0001\n"[dice.roll(5)] } else { dice.roll(256) as u8 }).collect();
        clean(&made(&file, Some(&trace)));
        clean(&made(&good, Some(&trace)));
    }
    clean(&made(hostile, Some(hostile)));
    clean(&made(b"", None));
    clean(&page(&Input { file: &good, file_name: "</title><script>\u{202E}\n\x1B", trace: Some((b"", "<b>\"'&")), start: None }));
}

#[test]
fn ten_megabytes_make_a_small_page() {
    let (good, _) = example("box", "trace.txt");
    let mut dice = Dice(3);
    let noise: Vec<u8> = (0..10 << 20).map(|_| dice.roll(256) as u8).collect();
    let long = b"000001\n010101\n".repeat(750_000);
    for html in [made(&noise, Some(&noise)), made(&good, Some(&noise)), made(&good, Some(&long))] {
        clean(&html);
        assert!(html.len() < 5_000_000, "{}", html.len());
    }
}

/// The truth of the guard of region r of the file below is: the values are all this.
const NEEDS: [usize; 16] = [0, 1, 0, 0, 1, 0, 1, 1, 0, 1, 0, 0, 1, 0, 1, 1];

/// A file with as many variables, regions and guards as there may be and long names, whose bodies change all values.
fn crowded() -> Vec<u8> {
    let name = |k: usize| format!("variable_number{k}");
    let mut file = String::from("monitor crowded_crowded1 {\n");
    (0..6).for_each(|k| file.push_str(&format!("var {} = 0 in 0..1;\n", name(k))));
    file.push_str("keep true;\n");
    let body: String = (0..6).map(|k| format!("{0}:=1-{0};", name(k))).collect();
    for method in 0..8 {
        file.push_str(&format!("method method_number_{method} {{\n"));
        for r in [2 * method, 2 * method + 1] {
            let guard = format!("{} == {} && {} < {} && {} < 9", name(0), NEEDS[r], name(1), r + 2, name(2));
            file.push_str(&format!("waituntil ({guard}) {{ {body} }}\n"));
        }
        file.push_str("}\n");
    }
    file.push_str("}\n");
    file.into_bytes()
}

/// So many frames of all sixteen threads on that file, without rechecks, so that both machines take them all.
fn busy(count: usize) -> Vec<u8> {
    let (mut dice, mut value, mut trace) = (Dice(11), 0, String::new());
    // A thread's region and whether it waits there; who is notified; and all who wait, the earliest first.
    let (mut places, mut notified, mut due) = ([None; 16], [false; 16], None);
    let mut queue: Vec<usize> = Vec::new();
    while trace.len() < 7 * count {
        let thread = due.map_or_else(|| dice.roll(16), |(thread, _)| thread);
        let region = due.map(|(_, region)| region).or(places[thread]).unwrap_or_else(|| 2 * dice.roll(8));
        let holds = NEEDS[region] == value;
        let waiting = due.is_none() && places[thread].is_some();
        let first = queue.iter().copied().find(|&t| places[t] == Some(region) && notified[t]);
        let idle = places.iter().filter(|place| place.is_none()).count();
        // Not a waiter that may not go on; and some threads stay idle, so that there is always one that can.
        let may = if waiting { holds && first == Some(thread) } else { holds || idle > 4 || due.is_some() };
        if !may {
            continue;
        }
        trace.push_str(&format!("{thread:02X}{region:02X}{:02X}\n", u8::from(holds)));
        (due, notified[thread]) = (None, false);
        places[thread] = (!holds).then_some(region);
        queue.retain(|&t| t != thread);
        if !holds {
            queue.push(thread);
        }
        if holds {
            value = 1 - value;
            due = (region % 2 == 0).then_some((thread, region + 1));
            (0..16).filter(|&t| places[t].is_some_and(|r| NEEDS[r] == value)).for_each(|t| notified[t] = true);
        }
    }
    trace.into_bytes()
}

/// A block of text for the page's script.
fn block<'a>(html: &'a str, id: &str) -> &'a str {
    html.split(&format!("id=\"{id}\">\n")).nth(1).and_then(|rest| rest.split("</script>").next()).unwrap()
}

/// The lists of a long run, with their phrases in full.
fn unpacked(html: &str) -> String {
    let phrases: Vec<&str> = block(html, "phrases").lines().collect();
    let full = |c: char| match c {
        '\u{E000}'..='\u{F8FF}' => phrases[c as usize - 0xE000].to_string(),
        c => c.to_string(),
    };
    block(html, "windows").chars().map(full).collect()
}

#[test]
fn the_longest_busiest_trace_stays_under_five_megabytes() {
    let (file, trace) = (crowded(), busy(9362));
    let points = damsonyet::points(&file, &trace, 0).unwrap();
    assert_eq!((points.plain, points.table, points.points.len()), (Ok(()), Ok(()), 9363), "both machines take all of it");
    let html = made(&file, Some(&trace));
    assert_eq!(flaw(&html), None);
    assert!(html.len() < 5_000_000, "{} bytes", html.len());
    // The first and the last window are on the page, every other one is in the list, and each frame stands in the list once.
    let lists = unpacked(&html);
    let sheet = Sheet::new(&file, damsonyet::outline(&file).unwrap().0);
    let said: Vec<&str> = lists.lines().filter(|line| line.starts_with('f')).collect();
    assert_eq!((said.len(), lists.trim_end().split("\n\n").count()), (9362, 9362usize.div_ceil(24)));
    for (k, frame) in frames(&trace).iter().enumerate() {
        let says = escaped(&words::frame(&sheet, frame, &points.points[k], points.points.get(k + 1)));
        let given: Vec<&str> = said[k].split('\t').collect();
        assert_eq!((given[1], given[3]), (&*k.to_string(), &*frame.text()));
        assert!(given[4].starts_with(&says), "frame {k}: {}", said[k]);
    }
    assert!(html.contains("id=\"f0\"") && html.contains("id=\"f23\"") && html.contains("id=\"f9361\"") && !html.contains("id=\"f24\""));
}

/// Sixteen threads that take and give one thing in turn: fifteen of them wait in one line, and every frame changes it or its notices.
#[test]
fn the_longest_line_stays_under_five_megabytes() {
    let file = fs::read(examples().join("queue/monitor.txt")).unwrap();
    let mut trace = String::from("000001\n") + &(1..16).map(|t| format!("{t:02X}0000\n")).collect::<String>();
    for k in 0.. {
        let (holder, next) = (k % 16, (k + 1) % 16);
        trace.push_str(&format!("{holder:02X}0101\n{next:02X}0001\n{holder:02X}0000\n"));
        if trace.len() >= 7 * 9362 {
            break;
        }
    }
    let trace = &trace.as_bytes()[..7 * 9362];
    let points = damsonyet::points(&file, trace, damsonyet::start_state(&file)).unwrap();
    assert_eq!((points.plain, points.table), (Ok(()), Ok(())), "both machines take all of it");
    assert_eq!(points.points.iter().map(|point| point.queue().len()).max(), Some(15));
    let html = made(&file, Some(trace));
    assert_eq!(flaw(&html), None);
    assert!(html.len() < 5_000_000, "{} bytes", html.len());
    // The whole line is drawn behind frame 15 and told there.
    let line = (1..16).map(|t| format!("{t:02X}")).collect::<Vec<_>>().join(", ");
    assert!(html.contains(&format!("aria-label=\"line on g00: {line}\"")) && html.contains(&format!(" In line on g00: {line}.</span>")));
}

#[test]
fn a_list_has_known_shapes_with_all_their_numbers() {
    let (file, trace) = (crowded(), busy(300));
    let html = made(&file, Some(&trace));
    let shapes: Vec<(&str, &str)> = block(&html, "shapes").lines().map(|line| line.split_once('\t').unwrap()).collect();
    for line in unpacked(&html).lines().filter(|line| !line.is_empty()) {
        let given: Vec<&str> = line.split('\t').collect();
        let (_, text) = shapes.iter().find(|(letter, _)| *letter == given[0]).unwrap_or_else(|| panic!("no shape: {line}"));
        let asked = text.split('$').skip(1).map(|part| part[..1].parse::<usize>().unwrap() + 1).max().unwrap_or(0);
        assert!(asked < given.len(), "{line}: {text}");
    }
}
