//! What the programs print ("Program lines"), and lines about `points`, about tries, about touched
//! pairs and about loads.

use crate::answer::Answer;
use crate::cases::asks::Ask;
use crate::check::check;
use crate::load::{load, Made, LINE};
use crate::machines::{Machine, Machines, Record};
use crate::points::{needed, points, Points, POINT};
use crate::table::place;
use crate::tries::{tried, Fate};

/// `runner` judges a longer trace by this many first bytes.
pub const MOST_TRACE_BYTES: usize = 65_536;

/// What `placer` prints for a file: its table, or the refusal.
pub fn placer(file: &[u8]) -> Vec<u8> {
    match place(file, usize::MAX) {
        Ok(placed) => placed.table,
        Err(answer) => refusal_line(answer).into_bytes(),
    }
}

/// What `runner` prints: a file's refusal once; else the plain machine's line and
/// the table's, each from the start values.
pub fn runner(file: &[u8], trace: &[u8]) -> Vec<u8> {
    let machines = match check(file) {
        Ok(monitor) => Machines::of(monitor),
        Err(answer) => return refusal_line(answer).into_bytes(),
    };
    let trace = &trace[..trace.len().min(MOST_TRACE_BYTES)];
    let start = machines.monitor.start_number();
    let mut lines = String::new();
    for machine in [Machine::Plain, Machine::Table] {
        lines += &match machines.run(trace, start, machine) {
            Ok(record) => record_line(&record),
            Err(answer) => refusal_line(answer),
        };
    }
    lines.into_bytes()
}

/// What `points` gives from the start values with a buffer that is just long enough:
/// both machines' answers, then the points, each as 98 digits.
pub fn points_lines(file: &[u8], trace: &[u8]) -> Vec<u8> {
    let (given, buffer) = points_in(file, trace, needed(trace.len()));
    let mut lines = answer_line(given.plain) + &answer_line(given.table);
    for point in buffer.chunks(POINT).take(given.count) {
        for byte in point {
            lines += &format!("{byte:02X}");
        }
        lines += "\n";
    }
    lines.into_bytes()
}

/// The five lines that `replay` prints about `points`. With a buffer of one point more
/// than must be: both answers, then the count and the buffer's checksum. With a buffer
/// that is a byte too short: the plain machine's answer, then the same two.
pub fn replay_points(file: &[u8], trace: &[u8]) -> Vec<u8> {
    let (long, long_buffer) = points_in(file, trace, needed(trace.len()) + POINT);
    let (short, short_buffer) = points_in(file, trace, needed(trace.len()) - 1);
    let lines = [
        answer_line(long.plain),
        answer_line(long.table),
        count_line(long, &long_buffer),
        answer_line(short.plain),
        count_line(short, &short_buffer),
    ];
    lines.concat().into_bytes()
}

/// The lines that `replay` prints about tries: of an accepted file 00, the chosen ones and
/// how many tries there are, of a refused one its refusal; and of a file that all checks
/// up to 8 pass, one line for each try.
pub fn replay_tries(file: &[u8]) -> Vec<u8> {
    let (verdict, fates) = tried(file);
    let fates = fates.unwrap_or_default();
    let mut lines = match (verdict, place(file, usize::MAX)) {
        (Ok(()), Ok(placed)) => format!("00{:04X}{:04X}\n", placed.chosen, fates.len()),
        (verdict, _) => answer_line(verdict),
    };
    for fate in fates {
        lines += &fate_line(fate);
    }
    lines.into_bytes()
}

/// The line that `replay` prints about touched pairs: 00, how many there are and how many
/// bytes the table has, four digits each; of a refused file noughts.
pub fn replay_pairs(file: &[u8]) -> Vec<u8> {
    let (pairs, length) = match place(file, usize::MAX) {
        Ok(placed) => (placed.pairs, placed.table.len()),
        Err(_) => (0, 0),
    };
    format!("00{pairs:04X}{length:04X}\n").into_bytes()
}

/// What `load` gives: its answer, then how many frames there are, then these.
pub fn load_lines(file: &[u8], ask: Ask) -> Vec<u8> {
    let (made, buffer) = load_in(file, ask);
    let mut lines = (answer_line(made.answer) + &format!("{}\n", made.count)).into_bytes();
    lines.extend(&buffer[..LINE * made.count]);
    lines
}

/// The two lines that `replay` prints about a load: its answer, then the count and the buffer's
/// checksum.
pub fn replay_load(file: &[u8], ask: Ask) -> Vec<u8> {
    let (made, buffer) = load_in(file, ask);
    let count = format!("00{:04X}{:04X}\n", made.count, checksum(&buffer));
    (answer_line(made.answer) + &count).into_bytes()
}

/// Two digits for the pass, 00 of a chosen try, FF of one that is false at the start; then
/// the region and the state, four digits each.
pub fn fate_line(fate: Fate) -> String {
    match fate {
        Fate::Chosen => "0000000000\n".into(),
        Fate::FalseAtStart => "FF00000000\n".into(),
        Fate::Broken { pass, region, state } => format!("{pass:02X}{region:04X}{state:04X}\n"),
    }
}

/// What the buffers hold before the call.
const UNWRITTEN: u8 = 0xA5;

/// `points` from the start values' state (from state 0 where the file is refused), and
/// its buffer of so many bytes afterwards.
fn points_in(file: &[u8], trace: &[u8], length: usize) -> (Points, Vec<u8>) {
    let start = check(file).map_or(0, |monitor| monitor.start_number());
    let mut buffer = vec![UNWRITTEN; length];
    let given = points(file, trace, start, &mut buffer);
    (given, buffer)
}

/// A load, and its buffer afterwards.
fn load_in(file: &[u8], ask: Ask) -> (Made, Vec<u8>) {
    let mut buffer = vec![UNWRITTEN; ask.room];
    let made = load(file, ask.seed, ask.threads, ask.wanted, &mut buffer);
    (made, buffer)
}

/// 00, the count of points and the checksum of the buffer: two, four and four digits.
fn count_line(given: Points, buffer: &[u8]) -> String {
    format!("00{:04X}{:04X}\n", given.count, checksum(buffer))
}

fn checksum(bytes: &[u8]) -> u32 {
    bytes.iter().fold(1, |sum, byte| (sum * 31 + u32::from(*byte)) % 65521)
}

/// A refusal's line; that of an acceptance has ten noughts.
fn answer_line(answer: Result<(), Answer>) -> String {
    refusal_line(answer.err().unwrap_or(Answer::at(0, 0)))
}

/// Two, four and four digits.
fn refusal_line(answer: Answer) -> String {
    format!("{:02X}{:04X}{:04X}\n", answer.number, answer.first, answer.second)
}

/// 00, each value plus 128, then the sixteen places.
fn record_line(record: &Record) -> String {
    let mut line = String::from("00");
    for value in &record.values {
        line += &format!("{:02X}", value + 128);
    }
    for place in record.places {
        line += &format!("{:02X}", place.byte());
    }
    line + "\n"
}
