//! Damaged traces.

use super::{about, any_kind, Source};
use crate::cases::damage::{any_bytes, damage_bytes};
use crate::cases::draws::Draws;
use crate::cases::traces::{any_frame, walk, with_bad_line, Walk};
use crate::check::check;
use crate::frames::{frames, trace_of, Frame, THREADS};
use crate::lines::MOST_TRACE_BYTES;
use crate::machines::{Machine, Machines};

/// The bytes of a frame's line.
const LINE: usize = 7;

/// Where a trace comes from.
#[derive(Clone, Copy)]
enum Origin {
    /// The trace of the undamaged file.
    Given,
    /// The trace of another case.
    Other,
    /// A walk of the file as it is now.
    Walk,
    /// A walk that goes round in circles, about as long as `runner` reads.
    LongWalk,
    /// Frames in no order.
    Frames,
    /// Any bytes.
    Any,
}

const ORIGINS: [(Origin, usize); 6] = [
    (Origin::Given, 40),
    (Origin::Other, 5),
    (Origin::Walk, 35),
    (Origin::LongWalk, 5),
    (Origin::Frames, 10),
    (Origin::Any, 5),
];

/// What is done to a trace.
#[derive(Clone, Copy)]
enum Kind {
    /// Nothing.
    Whole,
    /// Single bytes flipped, removed, inserted, swapped, or the trace cut off there.
    Bytes,
    /// Lines removed, doubled, swapped.
    Lines,
    /// One frame with another thread, region or flag that still makes a frame.
    Fields,
    /// Threads for one another, or frames with 00 in another order: who came first changes.
    Order,
    /// One line that is no frame, by little: the thread 10, the flag 02 and the like.
    Edges,
    /// One line that is no frame.
    BadLine,
    /// Lines that end otherwise, or do not end.
    Endings,
    /// Repeated until it is about as long as `runner` reads, or longer.
    Repeated,
}

const SHARES: [(Kind, usize); 9] = [
    (Kind::Whole, 42),
    (Kind::Bytes, 6),
    (Kind::Lines, 12),
    (Kind::Fields, 12),
    (Kind::Order, 12),
    (Kind::Edges, 4),
    (Kind::BadLine, 3),
    (Kind::Endings, 6),
    (Kind::Repeated, 3),
];

/// A trace for a file: `given` is that of the case from which the file was made.
pub fn hostile(draws: &mut Draws, source: &mut Source, given: Vec<u8>, file: &[u8]) -> Vec<u8> {
    let trace = match any_kind(draws, &ORIGINS) {
        Origin::Given => given,
        Origin::Other => source.any(draws).trace,
        Origin::Any => any_bytes(draws, 100),
        origin => match check(file) {
            Ok(monitor) => made(draws, &Machines::of(monitor), origin),
            Err(_) => given,
        },
    };
    let mut trace = damaged(draws, trace);
    if draws.chance(10) {
        trace = damaged(draws, trace);
    }
    trace
}

fn made(draws: &mut Draws, machines: &Machines, origin: Origin) -> Vec<u8> {
    if let Origin::Frames = origin {
        let count = draws.count(1, 30);
        let frames: Vec<Frame> = (0..count).map(|_| any_frame(draws, machines)).collect();
        return trace_of(&frames);
    }
    let machine = draws.pick(&[Machine::Plain, Machine::Table]);
    let count = draws.count(1, 40);
    let walk = walk(draws, machines, machine, count);
    match origin {
        Origin::LongWalk => circling(draws, walk),
        _ => trace_of(&walk.frames),
    }
}

/// A walk that repeats its frames from some record on to where that record comes
/// again, if it does.
fn circling(draws: &mut Draws, walk: Walk) -> Vec<u8> {
    let again = |start: usize| {
        (start + 1..walk.records.len()).rfind(|end| walk.records[*end] == walk.records[start])
    };
    let mut trace = trace_of(&walk.frames);
    if let Some((start, end)) = (0..walk.frames.len()).find_map(|at| Some((at, again(at)?))) {
        let circle = trace[LINE * start..LINE * end].to_vec();
        trace.truncate(LINE * end);
        let length = about_the_longest(draws);
        while trace.len() < length {
            trace.extend(&circle);
        }
        trace.truncate(length);
    }
    trace
}

/// About as many bytes as `runner` reads: whole frames, or not, or far more.
fn about_the_longest(draws: &mut Draws) -> usize {
    let whole_frames = MOST_TRACE_BYTES / LINE * LINE;
    match draws.below(6) {
        0..=2 => whole_frames,
        3 => whole_frames - LINE * draws.below(4),
        4 => about(draws, MOST_TRACE_BYTES),
        _ => draws.count(MOST_TRACE_BYTES, 2 * MOST_TRACE_BYTES),
    }
}

fn damaged(draws: &mut Draws, mut trace: Vec<u8>) -> Vec<u8> {
    match any_kind(draws, &SHARES) {
        Kind::Whole => (),
        Kind::Bytes => {
            for _ in 0..draws.pick(&[1, 1, 2, 5]) {
                damage_bytes(draws, &mut trace);
            }
        }
        Kind::Lines => lines(draws, &mut trace),
        Kind::Fields => fields(draws, &mut trace),
        Kind::Order => order(draws, &mut trace),
        Kind::Edges => edges(draws, &mut trace),
        Kind::BadLine => {
            if let Ok(frames) = frames(&trace) {
                trace = with_bad_line(draws, &frames);
            }
        }
        Kind::Endings => trace = endings(draws, trace),
        Kind::Repeated => {
            let length = about_the_longest(draws);
            while !trace.is_empty() && trace.len() < length {
                trace.extend_from_within(..);
            }
            trace.truncate(length);
        }
    }
    trace
}

fn lines(draws: &mut Draws, trace: &mut Vec<u8>) {
    let mut lines: Vec<&[u8]> = trace.split_inclusive(|byte| *byte == b'\n').collect();
    if lines.is_empty() {
        return;
    }
    for _ in 0..draws.pick(&[1, 1, 2, 4]) {
        let [place, other] = [0, 1].map(|_| draws.below(lines.len()));
        match draws.below(4) {
            0 if lines.len() > 1 => drop(lines.remove(place)),
            1 => lines.insert(place, lines[place]),
            2 => lines.insert(place, lines[other]),
            _ => lines.swap(place, other),
        }
    }
    *trace = lines.concat();
}

fn fields(draws: &mut Draws, trace: &mut Vec<u8>) {
    let Ok(mut frames) = frames(trace) else { return };
    for _ in 0..draws.pick(&[1, 1, 2, 4]).min(frames.len()) {
        let place = draws.below(frames.len());
        let frame = &mut frames[place];
        match draws.below(4) {
            0 => frame.thread = draws.below(THREADS),
            1 => frame.region = draws.pick(&[0, 1, 2, 3, 0x0F, 0x10, 0x7F, 0x80, 0xFF]),
            _ => frame.flag = !frame.flag,
        }
    }
    *trace = trace_of(&frames);
}

fn order(draws: &mut Draws, trace: &mut Vec<u8>) {
    let Ok(mut frames) = frames(trace) else { return };
    if frames.is_empty() {
        return;
    }
    let [one, other] = [0, 1].map(|_| draws.pick(&frames).thread);
    let begin = draws.below(frames.len());
    match draws.below(6) {
        0..=2 => frames.iter_mut().for_each(|frame| frame.thread = THREADS - 1 - frame.thread),
        3 => exchange(&mut frames, one, other),
        4 => exchange(&mut frames[begin..], one, other),
        _ => {
            let waits: Vec<usize> = (0..frames.len()).filter(|at| !frames[*at].flag).collect();
            if waits.len() > 1 {
                let place = draws.below(waits.len() - 1);
                frames.swap(waits[place], waits[place + 1]);
            }
        }
    }
    *trace = trace_of(&frames);
}

/// Each thread's frames for the other's.
fn exchange(frames: &mut [Frame], one: usize, other: usize) {
    for frame in frames {
        if frame.thread == one {
            frame.thread = other;
        } else if frame.thread == other {
            frame.thread = one;
        }
    }
}

fn edges(draws: &mut Draws, trace: &mut [u8]) {
    let lines = trace.len() / LINE;
    if lines == 0 {
        return;
    }
    let field = draws.below(3);
    let digits: &[&[u8; 2]] = match field {
        0 => &[b"10", b"10", b"11", b"1F", b"80", b"FF", b"0G", b"0a"],
        1 => &[b"0G", b"0a", b"G0", b"a0", b" 0", b"0 ", b"\x000"],
        _ => &[b"02", b"02", b"03", b"0A", b"10", b"11", b"80", b"FF", b"0b"],
    };
    let place = LINE * draws.below(lines) + 2 * field;
    let digits = draws.pick::<&[u8; 2]>(digits);
    trace[place..place + 2].copy_from_slice(digits);
}

fn endings(draws: &mut Draws, trace: Vec<u8>) -> Vec<u8> {
    let ended_by = |ending: &[u8]| -> Vec<u8> {
        let lines = trace.split(|byte| *byte == b'\n');
        lines.collect::<Vec<&[u8]>>().join(ending)
    };
    match draws.below(9) {
        0 => trace[..trace.len().saturating_sub(1)].to_vec(),
        1 => ended_by(b"\r\n"),
        2 => ended_by(b"\n\n"),
        3 => ended_by(b""),
        4 => ended_by(&[draws.byte()]),
        5 => [&trace[..], &[draws.pick(b"\n\r\t 0\x00\x1A")]].concat(),
        6 => [&[draws.pick(b"\n\r\t 0\x00\xEF")], &trace[..]].concat(),
        7 => trace.to_ascii_lowercase(),
        _ => [b"\xEF\xBB\xBF", &trace[..]].concat(),
    }
}
