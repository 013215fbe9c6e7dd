//! Cases with expected lines, for comparing programs by running.
//!
//! Every case is a file and a trace; what is expected of it are the lines that
//! this program gives. The aims below only see to it that everything occurs.

pub mod draws;
pub mod words;
pub mod monitors;
pub mod tries;
pub mod pairs;
pub mod crowds;
pub mod remainders;
pub mod made;
pub mod counted;
pub mod numbered;
pub mod queued;
pub mod divided;
pub mod asks;
pub mod loaded;
pub mod exact;
pub mod damage;
pub mod refused;
pub mod traces;

use std::fs;
use std::io;
use std::path::Path;

use crate::frames::{frames, trace_of, Frame};
use crate::lines::{placer, runner, MOST_TRACE_BYTES};
use crate::machines::{Machine, Machines};
use asks::Ask;
use damage::{any_bytes, damage_bytes, damage_tokens};
use draws::Draws;
use exact::{any_limit, exact};
use monitors::{any_accepted, Accepted};
use refused::refused;
use traces::{any_frame, reasons, refused_frames, walk, with_bad_line, Walk};
use words::laid_out_to_fit;

/// How large cases may be.
#[derive(Clone, Copy)]
pub struct Size {
    pub is_small: bool,
    pub bytes: usize,
    pub states: usize,
    pub variables: usize,
    pub methods: usize,
    pub regions: usize,
    pub statements: usize,
    pub frames: usize,
}

impl Size {
    pub const FULL: Size = Size {
        is_small: false,
        bytes: 8192,
        states: 4096,
        variables: 6,
        methods: 8,
        regions: 16,
        statements: 3,
        frames: 120,
    };

    pub const SMALL: Size = Size {
        is_small: true,
        bytes: 300,
        states: 36,
        variables: 2,
        methods: 3,
        regions: 4,
        statements: 1,
        frames: 12,
    };
}

#[derive(Clone)]
pub struct Case {
    pub monitor: Vec<u8>,
    pub trace: Vec<u8>,
}

impl Case {
    /// Writes the case with this number to a directory of its own, with the
    /// expected lines, and what a load is asked for beside it.
    pub fn write(&self, directory: &Path, number: usize) -> io::Result<()> {
        self.write_asking(Ask::beside(self), directory, number)
    }

    /// The same with this ask.
    pub fn write_asking(&self, ask: Ask, directory: &Path, number: usize) -> io::Result<()> {
        let to = directory.join(format!("{number:05}"));
        fs::create_dir_all(&to)?;
        fs::write(to.join("monitor.txt"), &self.monitor)?;
        fs::write(to.join("trace.txt"), &self.trace)?;
        fs::write(to.join("load.txt"), ask.text())?;
        fs::write(to.join("placer.txt"), placer(&self.monitor))?;
        fs::write(to.join("runner.txt"), runner(&self.monitor, &self.trace))
    }
}

/// What a case is made for.
#[derive(Clone, Copy)]
enum Aim {
    /// The file is refused with this number, 1 to 9 or 15.
    FileRefused(u8),
    /// A good file with a few tokens or bytes damaged, whatever becomes of it.
    Damaged,
    /// Any bytes.
    AnyBytes,
    /// Both machines accept.
    Walked,
    /// The same, with a limit met exactly.
    Exact,
    /// The plain machine accepts a recheck to which the table's answers 14.
    Parted,
    /// A line is no frame.
    BadLine,
    /// A frame is refused with this number, 13 or 14.
    FrameRefused(u8),
    /// A trace about as long as `runner` reads.
    LongTrace,
}

/// How many cases of every hundred have each aim.
const AIMS: [(Aim, usize); 19] = [
    (Aim::FileRefused(1), 4),
    (Aim::FileRefused(2), 4),
    (Aim::FileRefused(3), 4),
    (Aim::FileRefused(4), 4),
    (Aim::FileRefused(5), 4),
    (Aim::FileRefused(6), 4),
    (Aim::FileRefused(7), 4),
    (Aim::FileRefused(15), 5),
    (Aim::FileRefused(8), 4),
    (Aim::FileRefused(9), 5),
    (Aim::Damaged, 4),
    (Aim::AnyBytes, 2),
    (Aim::Walked, 27),
    (Aim::Exact, 6),
    (Aim::Parted, 5),
    (Aim::BadLine, 4),
    (Aim::FrameRefused(13), 4),
    (Aim::FrameRefused(14), 5),
    (Aim::LongTrace, 1),
];

/// The aim of a case: those of every hundred, well mixed.
fn aim_of(case: usize) -> Aim {
    let mut left = case * 37 % 100;
    for (aim, share) in AIMS {
        if left < share {
            return aim;
        }
        left -= share;
    }
    unreachable!("the shares make a hundred")
}

/// Draws before a case that asks much of its monitor is taken as it is.
const DRAWN: usize = 200;

pub fn make_case(seed: u64, case: usize, size: Size) -> Case {
    let mut draws = Draws::of(seed, case);
    let draws = &mut draws;
    match aim_of(case) {
        Aim::FileRefused(number) => beside_any_trace(refused(draws, size, number), draws, size),
        Aim::Damaged => damaged(draws, size),
        Aim::AnyBytes => beside_any_trace(any_bytes(draws, 200), draws, size),
        Aim::Walked => walked(draws, size, any_accepted),
        Aim::Exact => {
            let limit = any_limit(draws, size);
            walked(draws, size, |draws, size| exact(draws, size, limit))
        }
        Aim::Parted => parted(draws, size),
        Aim::BadLine => {
            let drawn = any_accepted(draws, size);
            let frames = walked_frames(draws, size, &drawn.machines);
            Case { monitor: drawn.file, trace: with_bad_line(draws, &frames) }
        }
        Aim::FrameRefused(number) => frame_refused(draws, size, number),
        Aim::LongTrace if size.is_small => walked(draws, size, any_accepted),
        Aim::LongTrace => long_trace(draws, size),
    }
}

/// A good file with damaged tokens or bytes, beside a walk of the good one.
fn damaged(draws: &mut Draws, size: Size) -> Case {
    let drawn = any_accepted(draws, size);
    let trace = trace_of(&walked_frames(draws, size, &drawn.machines));
    let mut file = drawn.file;
    if draws.chance(50) {
        let mut tokens = drawn.sketch.words(draws);
        for _ in 0..draws.count(1, 3) {
            damage_tokens(draws, &mut tokens);
        }
        file = laid_out_to_fit(draws, &tokens, size);
    } else {
        for _ in 0..draws.count(1, 3) {
            damage_bytes(draws, &mut file);
        }
    }
    Case { monitor: file, trace }
}

/// A file, most likely refused, beside a trace of some other monitor or of any
/// bytes: neither may change the file's refusal.
fn beside_any_trace(monitor: Vec<u8>, draws: &mut Draws, size: Size) -> Case {
    let trace = match draws.below(4) {
        0 => Vec::new(),
        1 => any_bytes(draws, 40),
        _ => {
            let drawn = any_accepted(draws, size);
            trace_of(&walked_frames(draws, size, &drawn.machines))
        }
    };
    Case { monitor, trace }
}

/// The frames of a walk of the table's machine, so that both machines accept.
fn walked_frames(draws: &mut Draws, size: Size, machines: &Machines) -> Vec<Frame> {
    any_walk(draws, size, machines).frames
}

fn any_walk(draws: &mut Draws, size: Size, machines: &Machines) -> Walk {
    let (least, most) = match draws.below(10) {
        0 => (0, 2),
        1..=6 => (3, size.frames.min(20)),
        _ => (3, size.frames),
    };
    let count = draws.count(least, most);
    walk(draws, machines, Machine::Table, count)
}

/// An accepted walk, preferably one in which a waiter runs its body, and in half of the cases
/// one that runs it before a waiter of a lower number.
fn walked(draws: &mut Draws, size: Size, monitor: impl Fn(&mut Draws, Size) -> Accepted) -> Case {
    let is_wanted = if draws.chance(50) { goes_before_a_lower } else { resumes };
    let mut drawn = monitor(draws, size);
    let mut walk = any_walk(draws, size, &drawn.machines);
    for _ in 0..20 {
        if is_wanted(&drawn.machines, &walk) {
            break;
        }
        drawn = monitor(draws, size);
        walk = any_walk(draws, size, &drawn.machines);
    }
    Case { monitor: drawn.file, trace: trace_of(&walk.frames) }
}

/// Whether some waiter runs its body.
fn resumes(_: &Machines, walk: &Walk) -> bool {
    let mut steps = walk.frames.iter().zip(&walk.records);
    steps.any(|(frame, record)| frame.flag && record.is_waiting(frame.thread))
}

/// Whether some waiter runs its body while one of a lower number waits on the same guard.
fn goes_before_a_lower(machines: &Machines, walk: &Walk) -> bool {
    let mut steps = walk.frames.iter().zip(&walk.records);
    steps.any(|(frame, record)| {
        let guard = machines.monitor.regions[frame.region].guard;
        let waiters = record.waiters(&machines.monitor, guard);
        frame.flag && waiters.contains(&frame.thread) && waiters.iter().any(|t| t < &frame.thread)
    })
}

/// A walk that the plain machine accepts and the table's does not, and in some
/// cases frames behind it.
fn parted(draws: &mut Draws, size: Size) -> Case {
    let mut case = walked(draws, size, any_accepted);
    for _ in 0..DRAWN {
        let drawn = any_accepted(draws, size);
        let walk = walk(draws, &drawn.machines, Machine::Plain, size.frames);
        if let Some(length) = parting(&drawn.machines, &walk.frames) {
            let mut frames = walk.frames;
            match draws.below(4) {
                // Nothing behind it; frames that the plain machine allows; any frame.
                0 | 1 => frames.truncate(length),
                2 => (),
                _ => frames.push(any_frame(draws, &drawn.machines)),
            }
            case = Case { monitor: drawn.file, trace: trace_of(&frames) };
            break;
        }
    }
    case
}

/// How many frames of a walk end with the first that the table's machine refuses.
fn parting(machines: &Machines, frames: &[Frame]) -> Option<usize> {
    let start = machines.monitor.start_number();
    let refusal = machines.run(&trace_of(frames), start, Machine::Table).err()?;
    Some(refusal.first + 1)
}

/// A walk and then a frame refused with this number for a drawn reason, and in
/// some cases frames behind it.
fn frame_refused(draws: &mut Draws, size: Size, number: u8) -> Case {
    let wanted = draws.pick(&reasons(number));
    let mut drawn_before = 0;
    loop {
        drawn_before += 1;
        let drawn = any_accepted(draws, size);
        let machine = draws.pick(&[Machine::Plain, Machine::Table]);
        let count = draws.count(0, size.frames - 1);
        let walk = walk(draws, &drawn.machines, machine, count);
        // Every point of the walk at which such a frame would be refused.
        let mut points: Vec<(usize, Frame)> = Vec::new();
        for (length, record) in walk.records.iter().enumerate() {
            for (reason, frame) in refused_frames(&drawn.machines, machine, record, number) {
                if reason == wanted || drawn_before > DRAWN {
                    points.push((length, frame));
                }
            }
        }
        if !points.is_empty() {
            let (length, frame) = draws.pick(&points);
            let mut frames = walk.frames[..length].to_vec();
            frames.push(frame);
            for _ in 0..draws.below(3) {
                frames.push(any_frame(draws, &drawn.machines));
            }
            return Case { monitor: drawn.file, trace: trace_of(&frames) };
        }
    }
}

/// A trace of about 65,536 bytes: as long as can be accepted, or longer.
fn long_trace(draws: &mut Draws, size: Size) -> Case {
    let whole_frames = MOST_TRACE_BYTES / 7;
    let few = Size { variables: 2, states: 64, methods: 4, regions: 6, ..size };
    loop {
        let drawn = any_accepted(draws, few);
        let walk = walk(draws, &drawn.machines, Machine::Table, whole_frames + 10);
        let mut trace = trace_of(&walk.frames);
        if frames(&trace).is_ok_and(|frames| frames.len() <= whole_frames) {
            continue;
        }
        match draws.below(4) {
            0 | 1 => trace.truncate(whole_frames * 7),
            2 => trace.truncate(MOST_TRACE_BYTES - 1 + draws.below(4)),
            _ => (),
        }
        return Case { monitor: drawn.file, trace };
    }
}

/// Writes the cases, each in a directory of its own.
pub fn write_cases(seed: u64, count: usize, directory: &Path, size: Size) -> io::Result<()> {
    (0..count).try_for_each(|number| make_case(seed, number, size).write(directory, number))
}
