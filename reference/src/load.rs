//! A repeatable load (document 02, E6): a trace made from a seed on the plain machine, and its
//! refusals, 16 before those of the file and 10 behind them.

use crate::answer::Answer;
use crate::check::check;
use crate::frames::{trace_of, Frame, THREADS};
use crate::limits::MOST_REGIONS;
use crate::machines::{Machine, Machines, Record};

/// The bytes of a frame's line.
pub const LINE: usize = 7;

/// What the call gives besides the bytes of the buffer.
#[derive(Clone, Copy, Debug, PartialEq, Eq)]
pub struct Made {
    pub answer: Result<(), Answer>,
    /// How many frames were made; none if it is refused.
    pub count: usize,
}

/// Makes a trace for so many threads from the start values, up to the wanted count of frames, and
/// writes its lines into the buffer from byte 0. The bytes behind are kept, and so are all where it
/// is refused.
pub fn load(file: &[u8], seed: u32, threads: usize, wanted: usize, buffer: &mut [u8]) -> Made {
    match frames(file, seed, threads, wanted, buffer.len()) {
        Ok(frames) => {
            let lines = trace_of(&frames);
            buffer[..lines.len()].copy_from_slice(&lines);
            Made { answer: Ok(()), count: frames.len() }
        }
        Err(answer) => Made { answer: Err(answer), count: 0 },
    }
}

/// The frames that are made, or the refusal: 16, the file's, 10.
pub fn frames(
    file: &[u8],
    seed: u32,
    threads: usize,
    wanted: usize,
    buffer_length: usize,
) -> Result<Vec<Frame>, Answer> {
    if threads < 1 || threads > THREADS {
        return Err(Answer::at(16, 0));
    }
    let machines = Machines::of(check(file)?);
    // Seven bytes a wanted frame, whatever comes out; of the widest count this is more than a
    // usize holds.
    if (buffer_length as u128) < LINE as u128 * wanted as u128 {
        return Err(Answer::at(10, 0));
    }
    let mut record = machines.start(machines.monitor.start_number())?;
    let mut number = seed;
    let mut frames = Vec::new();
    while frames.len() < wanted {
        let allowed = allowed(&machines, &record, threads);
        if allowed.is_empty() {
            break;
        }
        number = next(number);
        let frame = allowed[draw(number) % allowed.len()];
        record = machines.step(&record, frame, Machine::Plain).expect("an allowed frame");
        frames.push(frame);
    }
    Ok(frames)
}

/// The frames that the plain machine allows to threads numbered from 0, rechecks left out, by
/// thread and then region. Every one is asked with both flags.
pub fn allowed(machines: &Machines, record: &Record, threads: usize) -> Vec<Frame> {
    let mut allowed = Vec::new();
    for thread in 0..threads {
        for region in 0..MOST_REGIONS {
            for flag in [false, true] {
                let frame = Frame { thread, region, flag };
                let is_recheck = record.is_waiting(thread) && !flag;
                if !is_recheck && machines.step(record, frame, Machine::Plain).is_ok() {
                    allowed.push(frame);
                }
            }
        }
    }
    allowed
}

/// What replaces the number: itself times 1664525 plus 1013904223, kept to 32 bits.
pub fn next(number: u32) -> u32 {
    let wide = u64::from(number) * 1_664_525 + 1_013_904_223;
    (wide % (1 << 32)) as u32
}

/// What is used of the number that has replaced another: its upper sixteen bits.
pub fn draw(number: u32) -> usize {
    (number / 65_536) as usize
}
