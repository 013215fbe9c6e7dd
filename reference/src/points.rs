//! Every point of a run: the call `points`, which is not in document 01. Its text:
//!
//! - It takes a file, a trace, the number of a start state and a lent buffer, runs
//!   both machines from that state with all threads idle, and gives both answers,
//!   how many points it wrote, and the points in the buffer from byte 0.
//! - Order of checks: those of the file; then 10 (places 0), the buffer is shorter than 49
//!   times one more than the trace's length divided by 7, rounded down; then 11; then
//!   12 over the whole trace; then 13 and 14 frame by frame. An answer of 1 to 12 or 15
//!   is that of both machines; then no byte changes and the count is 0.
//! - Written are the points 0, 1, .. up to where the plain machine stops: n + 1 if it
//!   accepts all n frames, k + 1 if it refuses frame k. The bytes behind are kept.
//! - A point's bytes: 0 to 5 each variable's value plus 128, and 128 in the slots without
//!   a variable; 6 to 21 the sixteen places as `runner` prints them; 22 and 23 the guards
//!   that hold, one bit each by number, low byte first, as are all pairs; 24 and 25 the
//!   plain machine's notified threads; 26 and 27 those of them that were not notified at
//!   the point before (at point 0 none); 28 is 01 where the table's machine has this
//!   point, 00 where it has stopped before; 29 to 32 as 24 to 27 on the table's machine,
//!   or 00 where it has stopped; 33 to 48 the sixteen threads' turns, thread 0 first, 0
//!   where a thread does not wait.

use crate::answer::Answer;
use crate::check::check;
use crate::frames::{frames, Frame};
use crate::limits::MOST_VARIABLES;
use crate::machines::{Machine, Machines, Record};

/// The bytes of a point.
pub const POINT: usize = 49;

/// What the call gives besides the bytes of the buffer.
#[derive(Clone, Copy, Debug, PartialEq, Eq)]
pub struct Points {
    pub plain: Result<(), Answer>,
    pub table: Result<(), Answer>,
    /// How many points were written.
    pub count: usize,
}

/// One machine's run of a list of frames, by itself.
struct Run {
    /// The record at each point that the machine has: one more than the frames that
    /// it accepts.
    records: Vec<Record>,
    answer: Result<(), Answer>,
}

/// Runs both machines on the trace and writes the points.
pub fn points(file: &[u8], trace: &[u8], start: usize, buffer: &mut [u8]) -> Points {
    let (machines, start, frames) = match checked(file, trace, start, buffer.len()) {
        Ok(checked) => checked,
        Err(answer) => return Points { plain: Err(answer), table: Err(answer), count: 0 },
    };
    let plain = run_of(&machines, &start, &frames, Machine::Plain);
    let table = run_of(&machines, &start, &frames, Machine::Table);
    for point in 0..plain.records.len() {
        let bytes = point_bytes(&machines, &plain, &table, point);
        buffer[point * POINT..(point + 1) * POINT].copy_from_slice(&bytes);
    }
    Points { plain: plain.answer, table: table.answer, count: plain.records.len() }
}

/// How long the buffer must be for a trace of so many bytes: a list of frames in so
/// many bytes has no more points.
pub fn needed(trace_length: usize) -> usize {
    POINT * (trace_length / 7 + 1)
}

/// What both machines run on, or the refusal of both, 1 to 12 or 15.
fn checked(
    file: &[u8],
    trace: &[u8],
    start: usize,
    buffer_length: usize,
) -> Result<(Machines, Record, Vec<Frame>), Answer> {
    let monitor = check(file)?;
    if buffer_length < needed(trace.len()) {
        return Err(Answer::at(10, 0));
    }
    let machines = Machines::of(monitor);
    let start = machines.start(start)?;
    let frames = frames(trace)?;
    Ok((machines, start, frames))
}

fn run_of(machines: &Machines, start: &Record, frames: &[Frame], machine: Machine) -> Run {
    let mut record = start.clone();
    let mut records = vec![record.clone()];
    for (index, frame) in frames.iter().enumerate() {
        match machines.step(&record, *frame, machine) {
            Ok(next) => record = next,
            Err(number) => return Run { records, answer: Err(Answer::at(number, index)) },
        }
        records.push(record.clone());
    }
    Run { records, answer: Ok(()) }
}

/// The bytes of one point. Values, places and turns are the plain machine's: they stand
/// once for both, and while the table's machine accepts, both agree on them.
fn point_bytes(machines: &Machines, plain: &Run, table: &Run, point: usize) -> [u8; POINT] {
    let monitor = &machines.monitor;
    let record = &plain.records[point];
    let mut bytes = Vec::new();
    // 0 to 5: each value plus 128, and 128 in the slots without a variable.
    for slot in 0..MOST_VARIABLES {
        let value = record.values.get(slot).unwrap_or(&0);
        bytes.push(u8::try_from(value + 128).expect("a value in its range"));
    }
    // 6 to 21: the places.
    bytes.extend(record.places.map(|place| place.byte()));
    // 22 and 23: the guards that hold.
    let holds = |guard: &usize| monitor.guard_holds(*guard, &record.values);
    let holding: u16 = (0..monitor.guards.len()).filter(holds).map(|guard| 1 << guard).sum();
    bytes.extend(holding.to_le_bytes());
    // 24 to 27: whom the plain machine has notified, and told by this frame.
    bytes.extend(notices(&plain.records, point));
    // 28: whether the table's machine has this point; 29 to 32: its notices, or 00.
    if point < table.records.len() {
        bytes.push(1);
        bytes.extend(notices(&table.records, point));
    } else {
        bytes.extend([0; 5]);
    }
    // 33 to 48: the turns.
    bytes.extend(record.turns);
    bytes.try_into().expect("49 bytes")
}

/// A machine's notified threads at a point, and those of them that were not notified
/// at the point before (at point 0 none). Low bytes first.
fn notices(records: &[Record], point: usize) -> Vec<u8> {
    let notified = records[point].notified_bits();
    let told = match point {
        0 => 0,
        _ => notified & !records[point - 1].notified_bits(),
    };
    [notified.to_le_bytes(), told.to_le_bytes()].concat()
}
