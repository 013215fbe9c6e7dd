//! Writing for people: lines that fit the terminal, and colour where it is wanted.
use std::io::{self, Write};

/// How a line is dressed where there is colour.
#[derive(Clone, Copy, Debug, PartialEq, Eq)]
pub enum Style {
    Plain,
    Bold,
    Good,
    Bad,
    Mark,
}

impl Style {
    fn code(self) -> &'static str {
        match self {
            Style::Plain => "",
            Style::Bold => "\x1b[1m",
            Style::Good => "\x1b[1;32m",
            Style::Bad => "\x1b[1;31m",
            Style::Mark => "\x1b[1;33m",
        }
    }
}

/// When there is colour.
#[derive(Clone, Copy, Debug, PartialEq, Eq)]
pub enum Colour {
    Auto,
    Always,
    Never,
}

impl Colour {
    /// Whether there is colour where something is written: on a terminal, if nobody says otherwise.
    pub fn is_on(self, terminal: bool) -> bool {
        let set = |name: &str| std::env::var_os(name).is_some_and(|value| !value.is_empty());
        let dumb = std::env::var_os("TERM").is_none_or(|term| term == "dumb");
        match self {
            Colour::Always => true,
            Colour::Never => false,
            Colour::Auto => terminal && !set("NO_COLOR") && !dumb,
        }
    }
}

/// Where a text goes.
#[derive(Clone, Copy, Debug, PartialEq, Eq)]
pub enum Stream {
    Output = 1,
    Error = 2,
}

/// The columns of lines: as COLUMNS says, or the terminal; 80 where neither does.
pub fn columns(stream: Stream) -> usize {
    let named = std::env::var("COLUMNS").ok().and_then(|text| text.trim().parse::<usize>().ok()).filter(|&n| n > 0);
    named.or_else(|| terminal_columns(stream)).unwrap_or(80).clamp(NARROWEST, WIDEST)
}

/// Lines are never asked to fit less than the longest that runner prints, nor drawn out over more.
const NARROWEST: usize = 48;
const WIDEST: usize = 140;

#[cfg(target_os = "linux")]
fn terminal_columns(stream: Stream) -> Option<usize> {
    #[repr(C)]
    #[derive(Default)]
    struct Size {
        rows: u16,
        columns: u16,
        x: u16,
        y: u16,
    }
    extern "C" {
        fn ioctl(fd: i32, request: std::ffi::c_ulong, ...) -> i32;
    }
    const TIOCGWINSZ: std::ffi::c_ulong = 0x5413;
    let mut size = Size::default();
    // The call fills a struct of four numbers that is lent to it, or answers -1 where the stream is no terminal.
    let answer = unsafe { ioctl(stream as i32, TIOCGWINSZ, &mut size as *mut Size) };
    (answer == 0 && size.columns > 0).then_some(size.columns.into())
}

#[cfg(not(target_os = "linux"))]
fn terminal_columns(_stream: Stream) -> Option<usize> {
    None
}

/// A text in lines of at most so many columns: the first begins with one prefix, the others with another. Lines are cut at blanks, and
/// inside a word only where it is longer than a line.
pub fn wrapped(width: usize, first: &str, rest: &str, text: &str) -> Vec<String> {
    let mut lines = Vec::new();
    let mut line = first.to_string();
    let mut used = first.chars().count();
    let mut fresh = true;
    for word in text.split(' ').filter(|word| !word.is_empty()) {
        let mut letters: Vec<char> = word.chars().collect();
        if !fresh && used + 1 + letters.len() > width {
            lines.push(std::mem::replace(&mut line, rest.to_string()));
            (used, fresh) = (rest.chars().count(), true);
        }
        if !fresh {
            line.push(' ');
            used += 1;
        }
        fresh = false;
        while used + letters.len() > width {
            let room = width.saturating_sub(used).clamp(1, letters.len());
            line.extend(letters.drain(..room));
            lines.push(std::mem::replace(&mut line, rest.to_string()));
            used = rest.chars().count();
            fresh = letters.is_empty();
            if fresh {
                break;
            }
        }
        used += letters.len();
        line.extend(letters);
    }
    if !fresh || lines.is_empty() {
        lines.push(line);
    }
    lines
}

/// A blank at which no line is cut.
pub const NO_BREAK: char = '\u{a0}';

/// Where a command writes.
pub struct Out<'w> {
    pub to: &'w mut dyn Write,
    pub width: usize,
    pub colour: bool,
}

impl Out<'_> {
    /// A line as it is; the caller has seen to its length.
    pub fn line(&mut self, style: Style, text: &str) -> io::Result<()> {
        match style.code() {
            code if self.colour && !code.is_empty() => writeln!(self.to, "{code}{text}\x1b[0m"),
            _ => writeln!(self.to, "{text}"),
        }
    }

    pub fn blank(&mut self) -> io::Result<()> {
        writeln!(self.to)
    }

    /// A text in lines that fit, behind prefixes.
    pub fn text(&mut self, style: Style, first: &str, rest: &str, text: &str) -> io::Result<()> {
        for line in wrapped(self.width, first, rest, text) {
            self.line(style, line.trim_end().replace(NO_BREAK, " ").as_str())?;
        }
        Ok(())
    }

    pub fn heading(&mut self, text: &str) -> io::Result<()> {
        self.text(Style::Bold, "", "  ", text)
    }
}
