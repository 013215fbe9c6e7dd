//! Traces: walks that a machine allows, and frames that it refuses.

use super::draws::Draws;
use crate::frames::{trace_of, Frame, THREADS};
use crate::machines::{Machine, Machines, Place, Record};

/// The frames of a walk, and the record before each of them and at the end.
pub struct Walk {
    pub frames: Vec<Frame>,
    pub records: Vec<Record>,
}

/// A walk of so many frames from the start values, or of fewer if no frame is
/// allowed any more.
pub fn walk(draws: &mut Draws, machines: &Machines, machine: Machine, frames: usize) -> Walk {
    let start = machines.monitor.start_number();
    let record = machines.start(start).expect("the start values of an accepted file");
    walk_from(draws, machines, machine, frames, record)
}

/// A walk by a few threads from a given record.
pub fn walk_from(
    draws: &mut Draws,
    machines: &Machines,
    machine: Machine,
    frames: usize,
    mut record: Record,
) -> Walk {
    let way = Way::any(draws);
    let mut walk = Walk { frames: Vec::new(), records: vec![record.clone()] };
    while walk.frames.len() < frames {
        let Some(frame) = allowed_frame(draws, machines, machine, &record, &way) else {
            break;
        };
        record = machines.step(&record, frame, machine).expect("an allowed frame");
        walk.frames.push(frame);
        walk.records.push(record.clone());
    }
    walk
}

/// Who walks, and how a frame is drawn.
struct Way {
    threads: Vec<usize>,
    /// How many shall queue: up to then, to begin waiting is drawn more often. 0 if every kind
    /// of frame is drawn alike.
    crowd: usize,
}

impl Way {
    /// Half of the walks are of a crowd, which has more threads.
    fn any(draws: &mut Draws) -> Way {
        let mut threads: Vec<usize> = (0..THREADS).collect();
        for place in 0..THREADS {
            threads.swap(place, draws.below(THREADS));
        }
        let is_crowd = draws.chance(50);
        let count = match is_crowd {
            true => draws.pick(&[4, 5, 6, 8, 12, THREADS]),
            false => draws.pick(&[2, 3, 3, 4, 4, 5, 6, THREADS]),
        };
        threads.truncate(count);
        let crowd = if is_crowd { draws.count(2, count - 1) } else { 0 };
        Way { threads, crowd }
    }

    /// How often each kind of frame is put to the draw: to begin waiting, to run at once, to
    /// recheck, to resume.
    fn shares(&self, record: &Record) -> [usize; 4] {
        let waiting = self.threads.iter().filter(|thread| record.is_waiting(**thread)).count();
        match self.crowd {
            0 => [1, 1, 1, 1],
            crowd if waiting < crowd => [6, 1, 1, 1],
            _ => [1, 2, 2, 4],
        }
    }
}

/// A frame that the machine allows. First its kind is drawn (a waiter or not, the
/// guard held or not), so that rechecks come too.
fn allowed_frame(
    draws: &mut Draws,
    machines: &Machines,
    machine: Machine,
    record: &Record,
    way: &Way,
) -> Option<Frame> {
    let mut kinds: [Vec<Frame>; 4] = Default::default();
    for thread in &way.threads {
        for region in 0..machines.monitor.regions.len() {
            for flag in [false, true] {
                let frame = Frame { thread: *thread, region, flag };
                if machines.step(record, frame, machine).is_ok() {
                    kinds[kind_of(record, frame)].push(frame);
                }
            }
        }
    }
    let present: Vec<(&Vec<Frame>, usize)> =
        kinds.iter().zip(way.shares(record)).filter(|(kind, _)| !kind.is_empty()).collect();
    let mut left = draws.below(present.iter().map(|(_, share)| share).sum::<usize>().max(1));
    for (kind, share) in present {
        if left < share {
            return Some(draws.pick(kind));
        }
        left -= share;
    }
    None
}

fn kind_of(record: &Record, frame: Frame) -> usize {
    usize::from(frame.flag) + 2 * usize::from(record.is_waiting(frame.thread))
}

/// Why a frame is refused: each reason is drawn alike.
#[derive(Clone, Copy, PartialEq, Eq, Debug)]
pub enum Reason {
    NoSuchRegion,
    OtherThreadIsDue,
    DueElsewhere,
    WaitingElsewhere,
    WaitingElsewhereOnTheSameGuard,
    NotFirst,
    FlagOfWaiter,
    FlagOfOther,
    RecheckWithoutNotice,
    RunWithoutNotice,
    RunBeforeAnEarlier,
}

/// The reasons for a number, 13 or 14.
pub fn reasons(number: u8) -> Vec<Reason> {
    if number == 13 {
        vec![
            Reason::NoSuchRegion,
            Reason::OtherThreadIsDue,
            Reason::DueElsewhere,
            Reason::WaitingElsewhere,
            Reason::WaitingElsewhereOnTheSameGuard,
            Reason::NotFirst,
        ]
    } else {
        vec![
            Reason::FlagOfWaiter,
            Reason::FlagOfOther,
            Reason::RecheckWithoutNotice,
            Reason::RunWithoutNotice,
            Reason::RunBeforeAnEarlier,
        ]
    }
}

fn reason(machines: &Machines, record: &Record, frame: Frame, number: u8) -> Reason {
    let regions = &machines.monitor.regions;
    let place = record.places[frame.thread];
    if number == 13 {
        if frame.region >= regions.len() {
            return Reason::NoSuchRegion;
        }
        return match place {
            Place::Due(_) => Reason::DueElsewhere,
            _ if record.places.iter().any(|place| matches!(place, Place::Due(_))) => {
                Reason::OtherThreadIsDue
            }
            Place::Waiting(at) if regions[at].guard == regions[frame.region].guard => {
                Reason::WaitingElsewhereOnTheSameGuard
            }
            Place::Waiting(_) => Reason::WaitingElsewhere,
            Place::Idle => Reason::NotFirst,
        };
    }
    let holds = machines.monitor.guard_holds(regions[frame.region].guard, &record.values);
    if frame.flag != holds {
        match record.is_waiting(frame.thread) {
            true => Reason::FlagOfWaiter,
            false => Reason::FlagOfOther,
        }
    } else if record.notified[frame.thread] {
        Reason::RunBeforeAnEarlier
    } else if frame.flag {
        Reason::RunWithoutNotice
    } else {
        Reason::RecheckWithoutNotice
    }
}

/// All frames that the machine refuses here with this number.
pub fn refused_frames(
    machines: &Machines,
    machine: Machine,
    record: &Record,
    number: u8,
) -> Vec<(Reason, Frame)> {
    let count = machines.monitor.regions.len();
    let mut found = Vec::new();
    for thread in 0..THREADS {
        for region in (0..=count).chain([0xFF]) {
            for flag in [false, true] {
                let frame = Frame { thread, region, flag };
                if machines.step(record, frame, machine) == Err(number) {
                    found.push((reason(machines, record, frame, number), frame));
                }
            }
        }
    }
    found
}

/// Any frame at all, its region mostly one that the file has.
pub fn any_frame(draws: &mut Draws, machines: &Machines) -> Frame {
    let threads = draws.pick(&[4, 4, THREADS]);
    let thread = draws.below(threads);
    let region = match draws.chance(95) {
        true => draws.below(machines.monitor.regions.len()),
        false => draws.below(256),
    };
    Frame { thread, region, flag: draws.chance(50) }
}

/// The trace with one line made no frame (refusal 12).
pub fn with_bad_line(draws: &mut Draws, frames: &[Frame]) -> Vec<u8> {
    let place = draws.count(0, frames.len());
    let bad: Vec<u8> = match draws.below(10) {
        0 => b"\n".to_vec(),
        1 => b"000100\r\n".to_vec(),
        2 => b"00000a\n".to_vec(),
        3 => b"0000100\n".to_vec(),
        4 => b"00000\n".to_vec(),
        5 => format!("{:02X}0000\n", draws.count(THREADS, 255)).into_bytes(),
        6 => format!("0000{:02X}\n", draws.count(2, 255)).into_bytes(),
        7 => draws.pick(&[" 000000\n", "00 000\n", "0a0000\n", "000G00\n", "-10000\n"]).into(),
        8 => {
            // A last line without 0A.
            let mut trace = trace_of(frames);
            trace.extend(b"000000");
            trace.truncate(trace.len() - draws.below(6));
            return trace;
        }
        _ => (0..draws.count(1, 9)).map(|_| draws.byte()).chain([b'\n']).collect(),
    };
    [trace_of(&frames[..place]), bad, trace_of(&frames[place..])].concat()
}
