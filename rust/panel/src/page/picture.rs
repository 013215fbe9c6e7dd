//! The picture of a run: frames to the right; the numbers, the guards with who waits on each, and the threads below each other.
//!
//! A picture is made in two steps. Here a window of frames becomes a list: a line a shape, with the shape's letter and its numbers. `draw` then
//! puts each line's numbers into the text of its shape. The page's script does the second step alone, with the same texts, for the windows
//! that are not on the page: so there is one place that decides what is drawn.
use super::text::escape;
use crate::frames::Frame;
use crate::sheet::{pair, Sheet};
use crate::words;
use damsonyet::{Place, Point};
use std::ops::Range;

/// The frames of a window.
pub const WINDOW: usize = 24;

/// Widths: of a frame, at least and where there are few, and of all frames of a window; of what stands before the first and behind the last; of
/// the names at the left.
const STEP: usize = 40;
const WIDE: usize = 88;
const ROOM: usize = WINDOW * STEP;
const EDGE: usize = 14;
pub const NAMES: usize = 150;
/// Heights: of the flags and of the frames' numbers at the top, of a group's heading, of a variable, a guard and a thread.
const FLAG: usize = 20;
const HEAD: usize = 34;
const GROUP: usize = 24;
const VARIABLE: usize = 38;
const GUARD: usize = 16;
const LANE: usize = 36;
const FOOT: usize = 6;
/// A box of a guard's line, its width and its height; and how far behind its frame a line begins.
const BOX: usize = 14;
const HIGH: usize = 18;
const INSET: usize = 4;

/// A shape's letter, and its SVG text; `$0`, `$1`, .. stand for what a line gives.
const SHAPES: &[(char, &str)] = &[
    ('l', r#"<path class="rule" d="M0 $0H$1"/>"#),
    ('o', r#"<rect class="alone" x="$0" y="$1" width="$2" height="$3"/>"#),
    ('m', r#"<text class="only" x="$0" y="$1">plain machine only</text>"#),
    ('v', r#"<path class="value" d="$0"/>"#),
    ('n', r#"<text class="digit" x="$0" y="$1">$2</text>"#),
    ('g', r#"<path class="holds" d="$0"/>"#),
    ('h', r#"<path class="tail" d="M$1 $2H$3"/><g role="img" aria-label="$0" transform="translate($4 $5)">"#),
    ('u', r#"<path class="stands" d="M$0 $1h14v18h-14z"/><text class="stood" x="$0" y="$1" dx="7" dy="12">$2</text>"#),
    ('t', r#"<path class="stands told" d="M$0 $1h14v18h-14z"/><text class="stood" x="$0" y="$1" dx="7" dy="12">$2</text>"#),
    (
        'i',
        r#"<path class="stands" d="M$0 $1h14v18h-14z"/><path class="half" d="M$0 $1h14v4h-14z"/><text class="stood" x="$0" y="$1" dx="7" dy="12">$2</text>"#,
    ),
    (
        'j',
        r#"<path class="stands" d="M$0 $1h14v18h-14z"/><path class="half" d="M$0 $1m0 14h14v4h-14z"/><text class="stood" x="$0" y="$1" dx="7" dy="12">$2</text>"#,
    ),
    ('J', r#"<path class="joined" d="M$0 $1h14v18h-14z"/>"#),
    ('L', r#"<path class="gone" d="M$0 $1m0 2l-6 7l6 7z"/>"#),
    ('e', "</g>"),
    ('w', r#"<rect class="waits" x="$0" y="$1" width="$2" height="22" rx="3"/>"#),
    ('b', r#"<rect class="both" x="$0" y="$1" width="$2" height="16"/>"#),
    ('p', r#"<rect class="one" x="$0" y="$1" width="$2" height="9"/><text class="who" x="$3" y="$4">$5</text>"#),
    ('d', r#"<path class="due" d="M$0 $1h$2l9 11l-9 11h-$2z"/><text class="says small" x="$3" y="$4">due</text>"#),
    ('x', r#"<text class="says" x="$0" y="$1">$2</text>"#),
    ('r', r#"<circle class="ran" cx="$0" cy="$1" r="9"/><text class="in" x="$0" y="$2">$3</text>"#),
    ('c', r#"<circle class="came" cx="$0" cy="$1" r="9"/><text class="ring" x="$0" y="$2">$3</text>"#),
    ('k', r#"<path class="came" d="M$0 $1m-12 0l12 -12l12 12l-12 12z"/><text class="ring" x="$0" y="$2">$3</text>"#),
    ('z', r#"<path class="cross" d="M$0 $1m-7 -7l14 14m0 -14l-14 14"/>"#),
    ('a', r#"<path class="tells" d="M$0 $1V$2m-4 $3l4 $4l4 $3"/>"#),
    ('q', r#"<path class="tells some" d="M$0 $1V$2"/><path class="tells" d="M$0 $2m-4 $3l4 $4l4 $3"/>"#),
    (
        'y',
        r#"<path class="parts" d="M$0 17V22M$0 52V$1"/><path class="flag" d="M$2 2h$3v15h-$3z"/><text class="flagged" x="$4" y="13">$5</text>"#,
    ),
    (
        'f',
        r##"<a class="frame" id="f$0" href="#s$0"><title>Frame $0: $3</title><rect x="$1" y="20" width="$8" height="$4"/><text class="number" x="$5" y="34">$0</text><text class="hex" x="$5" y="48">$2</text></a>"##,
    ),
];

/// The sentence that belongs to a frame's line.
const SENTENCE: (char, &str) = (
    's',
    r##"<li id="s$0"$6><a href="#f$0"><b>$0</b> <code>$2</code></a><span>$3$7</span></li>
"##,
);

/// The shapes for the page's script, a line each.
pub fn shapes() -> String {
    SHAPES.iter().chain([&SENTENCE]).map(|(letter, text)| format!("{letter}\t{}\n", text.trim_end())).collect()
}

fn fill(text: &str, line: &str) -> String {
    let given: Vec<&str> = line.split('\t').skip(1).collect();
    let mut out = String::new();
    let mut parts = text.split('$');
    out.push_str(parts.next().unwrap_or_default());
    for part in parts {
        let mut rest = part.chars();
        let k = rest.next().and_then(|digit| digit.to_digit(10)).unwrap_or(0) as usize;
        out.push_str(given.get(k).copied().unwrap_or_default());
        out.push_str(rest.as_str());
    }
    out
}

/// The shapes of a list.
pub fn draw(list: &str) -> String {
    let shape = |line: &str| SHAPES.iter().find(|(letter, _)| line.starts_with(*letter)).map(|(_, text)| fill(text, line));
    list.lines().filter_map(shape).collect()
}

/// The sentences of a list.
pub fn sentences(list: &str) -> String {
    list.lines().filter(|line| line.starts_with('f')).map(|line| fill(SENTENCE.1, line)).collect()
}

/// The first of the characters that stand for phrases in a packed list; no other text of a page has characters of this range.
const PHRASE: u32 = 0xE000;

/// A list in which phrases that are often there are a character each.
pub fn packed(list: &str, phrases: &[String]) -> String {
    let mut out = list.to_string();
    for (phrase, c) in phrases.iter().zip((PHRASE..).filter_map(char::from_u32)) {
        out = out.replace(phrase.as_str(), c.encode_utf8(&mut [0; 4]));
    }
    out
}

/// What a run's pictures have in common.
pub struct Run<'a> {
    pub sheet: &'a Sheet<'a>,
    pub frames: &'a [Frame],
    /// Each frame's sentence, in words for people.
    pub says: Vec<String>,
    pub points: &'a [Point],
    /// The threads that move.
    pub threads: Vec<u8>,
    /// Frames that are marked: the number, what the flag says, and a note behind the frame's sentence.
    pub marked: Vec<(usize, String, String)>,
    /// The frame from which on there is the plain machine alone.
    pub alone: Option<usize>,
    /// The width of a frame.
    pub step: usize,
    /// How many wait on each guard, where most do.
    pub longest: Vec<usize>,
}

/// A waiter in a line, and whether it is notified in the plain machine and in the table's.
#[derive(PartialEq)]
struct Waiter {
    thread: u8,
    plain: bool,
    table: bool,
}

/// How many wait on each guard of a file, at the point where most do.
pub fn longest(sheet: &Sheet, points: &[Point]) -> Vec<usize> {
    let mut most = vec![0; sheet.outline.guards];
    for point in points {
        for (g, most) in most.iter_mut().enumerate() {
            let waits = |place: &&Place| matches!(place, Place::Waiting(region) if sheet.guard_of((*region).into()) == Some(g));
            *most = (*most).max(point.places.iter().filter(waits).count());
        }
    }
    most
}

/// The width of a frame in the pictures of so many.
pub fn step(frames: usize) -> usize {
    (ROOM / frames.max(1)).clamp(STEP, WIDE)
}

impl Run<'_> {
    /// The phrases that sentences are made of, the longest first.
    pub fn phrases(&self) -> Vec<String> {
        let outline = &self.sheet.outline;
        let guards = (0..outline.guards).map(|g| format!(": {}", words::guard(self.sheet, g)));
        let regions = (0..outline.regions.len()).map(|r| self.sheet.region_name(r));
        let values = (0..outline.variables.len()).map(|k| format!("{} becomes ", self.sheet.variable_name(k)));
        let fixed = [
            "Thread ",
            " enters ",
            " wakes at ",
            " goes on to ",
            " rechecks at ",
            " does not hold, it waits.",
            " does not hold, it waits on.",
            " holds, the body runs, ",
            "; it is due at ",
            " Notified: threads ",
            " Notified: thread ",
            " Notified: nobody",
            " Notified in the plain machine: thread",
            " in the plain machine, threads ",
            " in the plain machine, thread ",
            " in the table's.",
        ];
        let fixed = fixed.iter().map(|phrase| phrase.to_string());
        let lines = (0..outline.guards).flat_map(|g| [words::line_on(g), line_on(g)]);
        let mut all: Vec<String> = guards.chain(regions).chain(values).chain(lines).chain(fixed).map(|phrase| escape(&phrase)).collect();
        // A character of the range is three bytes.
        all.retain(|phrase| phrase.len() > 3);
        all.sort_by_key(|phrase| std::cmp::Reverse(phrase.len()));
        all
    }

    /// How many frames are drawn: those that lead to a point, and the refused one.
    pub fn drawn(&self) -> usize {
        self.frames.len().min(self.points.len())
    }

    pub fn windows(&self) -> usize {
        self.drawn().div_ceil(WINDOW)
    }

    /// The frames of a window.
    pub fn window(&self, k: usize) -> Range<usize> {
        k * WINDOW..((k + 1) * WINDOW).min(self.drawn())
    }

    fn guards_top(&self) -> usize {
        FLAG + HEAD + GROUP + self.sheet.outline.variables.len() * VARIABLE
    }

    /// Whether anybody ever waits.
    pub fn has_lines(&self) -> bool {
        self.longest.iter().any(|&most| most > 0)
    }

    /// How many boxes of a line stand side by side: as many as a frame has room for.
    fn side_by_side(&self) -> usize {
        (self.step - INSET - 2) / BOX
    }

    /// The height of the boxes over a guard; none where nobody ever waits on it.
    fn boxes(&self, g: usize) -> usize {
        self.longest[g].div_ceil(self.side_by_side()) * HIGH
    }

    /// Where a guard begins: its boxes, and below them its bar.
    fn guard_top(&self, g: usize) -> usize {
        self.guards_top() + GROUP + g * GUARD + (0..g).map(|before| self.boxes(before)).sum::<usize>()
    }

    /// The middle of a guard's bar.
    fn bar(&self, g: usize) -> usize {
        self.guard_top(g) + self.boxes(g) + GUARD / 2
    }

    fn threads_top(&self) -> usize {
        self.guard_top(self.sheet.outline.guards)
    }

    /// The middle of a lane.
    fn lane(&self, k: usize) -> usize {
        self.threads_top() + GROUP + k * LANE + LANE / 2
    }

    pub fn height(&self) -> usize {
        self.threads_top() + GROUP + self.threads.len() * LANE + FOOT
    }

    pub fn width(&self, frames: &Range<usize>) -> usize {
        // Behind the last frame a line has as much room as behind any other.
        let behind = if self.has_lines() { (self.step / 2).max(EDGE) } else { EDGE };
        // A flag has room in every picture.
        (EDGE + frames.len() * self.step + behind).max(300)
    }

    /// The names at the left.
    pub fn names(&self) -> String {
        let mut out = String::new();
        let mut text = |class: &str, x: usize, y: usize, text: &str, full: &str| {
            let title = if text == full { String::new() } else { format!("<title>{}</title>", escape(full)) };
            out.push_str(&format!("<text class=\"{class}\" x=\"{x}\" y=\"{y}\">{title}{}</text>", escape(text)));
        };
        text("group", 0, 34, "frame", "frame");
        let outline = &self.sheet.outline;
        text("group", 0, FLAG + HEAD + 16, "numbers", "numbers");
        for (k, variable) in outline.variables.iter().enumerate() {
            let y = FLAG + HEAD + GROUP + k * VARIABLE;
            let name = self.sheet.variable_name(k);
            text("name", 0, y + 22, &name, &name);
            for (y, bound) in [(y + 12, variable.high), (y + 32, variable.low)] {
                let bound = bound.to_string();
                text("bound", NAMES - 8, y, &bound, &bound);
            }
        }
        let guards = if self.has_lines() { "guards, and who waits" } else { "guards that hold" };
        text("group", 0, self.guards_top() + 16, guards, guards);
        for g in 0..outline.guards {
            let full = format!("g{} {}", pair(g as u8), self.sheet.guard_text(g));
            text("guards", 0, self.bar(g) + 4, &shortened(&full, 22), &full);
        }
        text("group", 0, self.threads_top() + 16, "threads", "threads");
        for (k, &thread) in self.threads.iter().enumerate() {
            let name = format!("thread {}", pair(thread));
            text("name", 0, self.lane(k) + 4, &name, &name);
        }
        out
    }

    /// A window's list.
    pub fn list(&self, frames: Range<usize>) -> String {
        let width = self.width(&frames);
        let mut list = List(String::new());
        let window = Window { first: frames.start, last: frames.end.min(self.points.len() - 1), width, step: self.step };
        if let Some(k) = self.alone.filter(|&k| k < frames.end) {
            let x = if k < frames.start { 0 } else { window.event(k) };
            list.add('o', &[&x, &FLAG, &(width - x), &(self.height() - FLAG)]);
            if width - x > 130 {
                list.add('m', &[&(x + 8), &(self.threads_top() + 16)]);
            }
        }
        for k in frames.clone() {
            let mark = self.marked.iter().find(|(at, ..)| *at == k);
            let (class, note) = mark.map_or(("", ""), |(_, _, note)| (" class=\"marked\"", note));
            let (x, middle) = (window.event(k) - self.step / 2, window.event(k));
            list.add('f', &[&k, &x, &self.frames[k].text(), &self.says[k], &(self.height() - FLAG), &middle, &class, &note, &self.step]);
        }
        self.variables(&mut list, &window);
        self.guards(&mut list, &window);
        for g in (0..self.sheet.outline.guards).filter(|&g| self.longest[g] > 0) {
            self.line(&mut list, &window, g);
        }
        for (k, &thread) in self.threads.iter().enumerate() {
            self.lane_of(&mut list, &window, k, thread);
        }
        for (k, says, _) in self.marked.iter().filter(|(k, ..)| frames.contains(k)) {
            let x = window.event(*k);
            let wide = says.chars().count() * 13 / 2 + 12;
            let left = if x + wide > width { x - wide.min(x) } else { x };
            list.add('y', &[&x, &(self.height() - FOOT), &left, &wide, &(left + 6), says]);
        }
        for k in frames {
            self.event(&mut list, &window, k);
        }
        list.0
    }

    fn variables(&self, list: &mut List, window: &Window) {
        for (k, variable) in self.sheet.outline.variables.iter().enumerate() {
            let top = FLAG + HEAD + GROUP + k * VARIABLE + 8;
            let size = usize::from(variable.high.abs_diff(variable.low)).max(1);
            let y = |value: i16| top + 20 - usize::from(value.abs_diff(variable.low)) * 20 / size;
            list.add('l', &[&top, &window.width]);
            list.add('l', &[&(top + 20), &window.width]);
            let mut path = String::new();
            let mut digits = Vec::new();
            for (place, run) in runs(window, |p| self.points[p].values[k]) {
                let y = y(place);
                path.push_str(&format!("{}{} {y}H{}", if path.is_empty() { 'M' } else { 'L' }, run.start, run.end));
                // The value stands under a high line and over a low one.
                digits.push((run.start + 4, if y < top + 9 { y + 11 } else { y - 3 }, place));
            }
            list.add('v', &[&path]);
            for (x, y, value) in digits {
                list.add('n', &[&x, &y, &value]);
            }
        }
    }

    fn guards(&self, list: &mut List, window: &Window) {
        for g in 0..self.sheet.outline.guards {
            let y = self.bar(g);
            list.add('l', &[&y, &window.width]);
            let spans = runs(window, |p| self.points[p].guards >> g & 1 == 1);
            let path: String = spans.iter().filter(|(holds, _)| *holds).map(|(_, run)| format!("M{} {y}H{}", run.start, run.end)).collect();
            if !path.is_empty() {
                list.add('g', &[&path]);
            }
        }
    }

    /// The line on a guard at a point, the earliest first.
    fn waiters(&self, p: usize, g: usize) -> Vec<Waiter> {
        let point = &self.points[p];
        let has = |set: u16, thread: u8| set >> thread & 1 == 1;
        let waiter = |thread: u8| Waiter {
            thread,
            plain: has(point.plain.notified, thread),
            table: point.table.is_some_and(|table| has(table.notified, thread)),
        };
        point.line(&self.sheet.outline, g).into_iter().map(waiter).collect()
    }

    /// A guard's line: boxes wherever it or its notices change, the front at the left, and a tail as long as neither does. Who has just come
    /// is marked, and that the front has gone.
    fn line(&self, list: &mut List, window: &Window, g: usize) {
        let top = self.guard_top(g);
        let mut before: Option<Vec<Waiter>> = None;
        for (line, run) in runs(window, |p| self.waiters(p, g)) {
            let is_in = |line: &[Waiter], thread: u8| line.iter().any(|waiter| waiter.thread == thread);
            if before.as_ref().and_then(|before| before.first()).is_some_and(|front| !is_in(&line, front.thread)) {
                list.add('L', &[&(run.start + INSET - 1), &top]);
            }
            if !line.is_empty() {
                list.add('h', &[&label(g, &line), &run.start, &(top + HIGH / 2), &run.end, &(run.start + INSET), &top]);
                for (k, waiter) in line.iter().enumerate() {
                    let (x, y) = (k % self.side_by_side() * BOX, k / self.side_by_side() * HIGH);
                    let letter = match (waiter.plain, waiter.table) {
                        (false, false) => 'u',
                        (true, true) => 't',
                        (true, false) => 'i',
                        (false, true) => 'j',
                    };
                    list.add(letter, &[&x, &y, &pair(waiter.thread)]);
                    if before.as_ref().is_some_and(|before| !is_in(before, waiter.thread)) {
                        list.add('J', &[&x, &y]);
                    }
                }
                list.add('e', &[]);
            }
            before = Some(line);
        }
    }

    /// A thread's places, and its notices where it waits.
    fn lane_of(&self, list: &mut List, window: &Window, k: usize, thread: u8) {
        let y = self.lane(k);
        list.add('l', &[&y, &window.width]);
        for (place, run) in runs(window, |p| self.points[p].places[usize::from(thread)]) {
            let wide = run.len();
            match place {
                Place::Idle => {}
                Place::Due(_) => list.add('d', &[&run.start, &(y - 11), &(wide.max(10) - 9), &(run.start + 11), &(y + 3)]),
                Place::Waiting(_) => list.add('w', &[&run.start, &(y - 11), &wide]),
            }
        }
        let notices = |p: usize| {
            let has = |set: u16| set >> thread & 1 == 1;
            let point = &self.points[p];
            (has(point.plain.notified), point.table.is_some_and(|table| has(table.notified)))
        };
        let notices = runs(window, notices);
        for (notified, run) in &notices {
            let (x, wide) = (run.start, run.len());
            match notified {
                (true, true) => list.add('b', &[&x, &(y - 8), &wide]),
                (true, false) => list.add('p', &[&x, &(y - 10), &wide, &(x + 14), &(y - 2), &"P"]),
                (false, true) => list.add('p', &[&x, &(y + 1), &wide, &(x + 14), &(y + 9), &"T"]),
                (false, false) => {}
            }
        }
        for (place, run) in runs(window, |p| self.points[p].places[usize::from(thread)]) {
            if let Place::Waiting(region) = place {
                // The label stands before the first notice, if there is room.
                let told = notices.iter().find(|(has, at)| *has != (false, false) && run.contains(&at.start) && at.start > run.start);
                let free = told.map_or(run.end, |(_, at)| at.start) - run.start;
                let label = self.waiting(usize::from(region), free);
                // A bar that comes in with a notice has the notice's letter first.
                let noticed = notices.iter().any(|(has, at)| *has != (false, false) && at.start == run.start);
                list.add('x', &[&(run.start + if noticed { 28 } else { 13 }), &(y + 4), &escape(&label)]);
            }
        }
    }

    /// What a bar of a width says of a waiter: its region and its guard, as much as fits.
    fn waiting(&self, region: usize, wide: usize) -> String {
        let guard = self.sheet.guard_of(region).map_or_else(String::new, |g| format!("g{}", pair(g as u8)));
        let whole = format!("{} {guard}", self.sheet.region_name(region));
        if whole.len() * 6 + 24 <= wide {
            whole
        } else {
            guard
        }
    }

    /// A frame on its thread's lane, and whom it tells.
    fn event(&self, list: &mut List, window: &Window, k: usize) {
        let frame = self.frames[k];
        let lane = |thread: u8| self.threads.iter().position(|&t| t == thread).map(|k| self.lane(k));
        let Some(y) = lane(frame.thread) else { return };
        let x = window.event(k);
        let Some(after) = self.points.get(k + 1) else {
            return list.add('z', &[&x, &y]);
        };
        let plain = after.plain.told;
        let table = after.table.map_or(0, |table| table.told);
        let mut tell = |set: u16, letter: char, x: usize| {
            for to in damsonyet::members(set).into_iter().filter_map(lane) {
                if to > y {
                    list.add(letter, &[&x, &y, &(to - 11), &-5, &5]);
                } else {
                    list.add(letter, &[&x, &y, &(to + 11), &5, &-5]);
                }
            }
        };
        tell(plain & table, 'a', x);
        tell(plain ^ table, 'q', x + 5);
        let before = self.points[k].places[usize::from(frame.thread)];
        let letter = match (frame.flag, before) {
            (true, _) => 'r',
            (false, Place::Waiting(_)) => 'k',
            (false, _) => 'c',
        };
        list.add(letter, &[&x, &y, &(y + 4), &pair(frame.region)]);
    }
}

fn line_on(g: usize) -> String {
    format!("line on g{}: ", pair(g as u8))
}

/// A line in words; whom a frame notifies its sentence says.
fn label(g: usize, line: &[Waiter]) -> String {
    line_on(g) + &line.iter().map(|waiter| pair(waiter.thread)).collect::<Vec<_>>().join(", ")
}

/// A name cut to so many characters.
fn shortened(text: &str, most: usize) -> String {
    if text.chars().count() <= most {
        return text.into();
    }
    text.chars().take(most - 1).chain(['…']).collect()
}

/// A list that grows.
struct List(String);

impl List {
    fn add(&mut self, letter: char, numbers: &[&dyn std::fmt::Display]) {
        self.0.push(letter);
        for number in numbers {
            self.0.push_str(&format!("\t{number}"));
        }
        self.0.push('\n');
    }
}

/// The points of a window, and where they stand: point p lasts from frame p - 1 to frame p.
struct Window {
    first: usize,
    last: usize,
    width: usize,
    step: usize,
}

impl Window {
    /// Where a frame stands.
    fn event(&self, frame: usize) -> usize {
        EDGE + self.step / 2 + (frame - self.first) * self.step
    }
}

/// The points of a window in runs that are alike, each with where it begins and ends.
fn runs<T: PartialEq>(window: &Window, of: impl Fn(usize) -> T) -> Vec<(T, Range<usize>)> {
    let mut out: Vec<(T, Range<usize>)> = Vec::new();
    for p in window.first..=window.last {
        let from = if p == window.first { 0 } else { window.event(p - 1) };
        let to = if p == window.last { window.width } else { window.event(p) };
        let value = of(p);
        match out.last_mut() {
            Some((last, run)) if *last == value => run.end = to,
            _ => out.push((value, from..to)),
        }
    }
    out
}
