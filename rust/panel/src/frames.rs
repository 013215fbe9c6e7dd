//! The frames of a trace, read for display.

/// A frame: the thread came to the region; with the flag its body ran.
#[derive(Clone, Copy, Debug, PartialEq, Eq)]
pub struct Frame {
    pub thread: u8,
    pub region: u8,
    pub flag: bool,
}

/// The bytes of a frame's line, its line feed included.
pub const LINE: usize = 7;

/// Where line k begins in a trace whose lines before it are frames.
pub fn line_start(k: usize) -> usize {
    k.saturating_mul(LINE)
}

/// Line k of such a trace without its line feed, and whether it has one.
pub fn line(trace: &[u8], k: usize) -> (&[u8], bool) {
    let rest = trace.get(line_start(k)..).unwrap_or_default();
    match rest.iter().position(|&byte| byte == b'\n') {
        Some(end) => (&rest[..end], true),
        None => (rest, false),
    }
}

fn frame(line: &[u8]) -> Option<Frame> {
    let digit = |k: usize| line.get(k).and_then(|&byte| char::from(byte).to_digit(16)).map(|digit| digit as u8);
    let two = |k: usize| Some(digit(k)? * 16 + digit(k + 1)?);
    Some(Frame { thread: two(0)?, region: two(2)?, flag: two(4)? == 1 })
}

/// The frames of a trace that the library does not refuse with 12; of another one those before the first line that is no six digits.
pub fn frames(trace: &[u8]) -> Vec<Frame> {
    trace.chunks_exact(LINE).map_while(frame).collect()
}

impl Frame {
    /// The frame as a trace has it, without the line feed.
    pub fn text(&self) -> String {
        format!("{:02X}{:02X}{:02X}", self.thread, self.region, u8::from(self.flag))
    }
}
