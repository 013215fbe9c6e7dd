//! What the programs print.

use crate::check::check;
use crate::machines::{frames, Machine, Machines, Place};
use crate::table::{place, Entry};
use crate::Refusal;

/// `runner` judges a longer trace by this many first bytes.
pub const MOST_TRACE_BYTES: usize = 65_536;

pub fn placer(file: &[u8]) -> Vec<u8> {
    let mut out = Vec::new();
    match check(file) {
        Ok(checked) => put_table(&mut out, &place(&checked).entries),
        Err(refusal) => put_refusal(&mut out, refusal),
    }
    out
}

/// A file's refusal once, or the plain machine's line and the table's.
pub fn runner(file: &[u8], trace: &[u8]) -> Vec<u8> {
    let mut out = Vec::new();
    let checked = match check(file) {
        Ok(checked) => checked,
        Err(refusal) => {
            put_refusal(&mut out, refusal);
            return out;
        }
    };
    let machines = Machines::new(&checked, &place(&checked).entries);
    let frames = frames(&trace[..trace.len().min(MOST_TRACE_BYTES)]);
    for machine in [Machine::Plain, Machine::Table] {
        let ended = match &frames {
            Ok(frames) => machines.run(frames, machine),
            Err(refusal) => Err(*refusal),
        };
        match ended {
            Ok(run) => {
                let values = &checked.states[usize::from(run.state)];
                put_record(&mut out, &values[..checked.monitor.variables.len()], &run.places);
            }
            Err(refusal) => put_refusal(&mut out, refusal),
        }
    }
    out
}

pub fn put_table(out: &mut Vec<u8>, entries: &[Entry]) {
    for entry in entries {
        put2(out, entry.region as u8);
        put2(out, entry.guard as u8);
        put2(out, u8::from(entry.unconditional));
        put2(out, u8::from(entry.broadcast));
        out.push(b'\n');
    }
}

pub fn put_refusal(out: &mut Vec<u8>, refusal: Refusal) {
    put2(out, refusal.number);
    put4(out, refusal.first);
    put4(out, refusal.second);
    out.push(b'\n');
}

pub fn put_record(out: &mut Vec<u8>, values: &[i32], places: &[Place]) {
    put2(out, 0);
    for value in values {
        put2(out, (value + 128) as u8);
    }
    for place in places {
        put2(
            out,
            match place {
                Place::Idle => 0xFF,
                Place::Waiting(region) => *region,
                Place::Due(region) => region + 0x10,
            },
        );
    }
    out.push(b'\n');
}

fn put2(out: &mut Vec<u8>, byte: u8) {
    const DIGITS: &[u8; 16] = b"0123456789ABCDEF";
    out.push(DIGITS[usize::from(byte >> 4)]);
    out.push(DIGITS[usize::from(byte & 15)]);
}

fn put4(out: &mut Vec<u8>, number: usize) {
    put2(out, (number >> 8) as u8);
    put2(out, number as u8);
}
