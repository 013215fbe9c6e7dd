//! Traces and their frames ("Frames and the two machines", first paragraph), and
//! refusal 12.

use crate::answer::Answer;

pub const THREADS: usize = 16;

#[derive(Clone, Copy, Debug, PartialEq, Eq)]
pub struct Frame {
    pub thread: usize,
    /// 0 to 255: a region that the file lacks still makes a frame.
    pub region: usize,
    /// True: the guard held and the body ran. False: it did not hold.
    pub flag: bool,
}

/// The frames of a trace, or refusal 12 at the first line that is none.
pub fn frames(trace: &[u8]) -> Result<Vec<Frame>, Answer> {
    let mut frames = Vec::new();
    for line in trace.split_inclusive(|byte| *byte == b'\n') {
        let frame = frame(line).ok_or(Answer::at(12, frames.len()))?;
        frames.push(frame);
    }
    Ok(frames)
}

/// The frame that a line gives, its 0A included.
fn frame(line: &[u8]) -> Option<Frame> {
    let digits = line.strip_suffix(b"\n")?;
    if digits.len() != 6 {
        return None;
    }
    let thread = two_digits(&digits[0..2])?;
    let region = two_digits(&digits[2..4])?;
    let flag = match two_digits(&digits[4..6])? {
        0 => false,
        1 => true,
        _ => return None,
    };
    (thread < THREADS).then_some(Frame { thread, region, flag })
}

fn two_digits(digits: &[u8]) -> Option<usize> {
    Some(digit(digits[0])? * 16 + digit(digits[1])?)
}

/// The digits are 0-9 and A-F; lower case is none.
fn digit(byte: u8) -> Option<usize> {
    b"0123456789ABCDEF".iter().position(|digit| *digit == byte)
}

/// The lines of a trace with these frames.
pub fn trace_of(frames: &[Frame]) -> Vec<u8> {
    let mut trace = String::new();
    for frame in frames {
        let flag = u8::from(frame.flag);
        trace += &format!("{:02X}{:02X}{:02X}\n", frame.thread, frame.region, flag);
    }
    trace.into_bytes()
}
