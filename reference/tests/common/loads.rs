//! Loads once more, by a program that can be wrong: so that tests can say which wrong programs a
//! case tells from the right one.

use reference::cases::asks::Ask;
use reference::check;
use reference::frames::{Frame, THREADS};
use reference::machines::Place;
use reference::monitor::Monitor;
use reference::table::after;
use reference::Answer;

/// How a program makes its load.
#[derive(Clone, Copy, Debug, PartialEq, Eq)]
pub enum Loading {
    Right,

    // What is drawn.
    LowerBits,
    /// The upper sixteen bits of the number before it is replaced.
    BeforeReplaced,
    WholeNumber,
    UpperFifteen,
    /// By the draw's part of 65,536 and not by the remainder.
    Scaled,
    /// The sum is made before the product.
    AddsFirst,
    SeedOfSixteenBits,
    /// The number keeps its upper bits, as one of 64.
    WideNumber,
    NoDrawForOne,
    /// A draw for the thread, and another for its frame.
    TwoDraws,
    /// A due thread goes on without a draw.
    NoDrawForDue,

    // What it is drawn from.
    RegionFirst,
    WaitsFirst,
    RunsFirst,
    ThreadsFalling,
    RegionsFalling,
    /// Idle threads' frames before those of waiters.
    WaitersLast,
    Rechecks,
    NoWaits,
    /// A due thread's frame with 00 is left out.
    NoDueWaits,
    OneThreadMore,
    OneThreadLess,
    FromThreadOne,
    AllThreads,
    ResumeByNumber,
    /// All who are told may resume.
    AnyResumes,
    /// Of all who are told one alone, the earliest on whichever guard.
    ResumeAmongAll,
    NobodyResumes,
    OthersWhileDue,
    NewcomersYield,
    AnyRegion,
    FromLowestValues,

    // When it ends.
    OneFrameLess,
    StopsWhenOneWaits,
    StopsAtOneFrame,

    // What is refused.
    TenByOutcome,
    TenByOneMore,
    SixBytes,
    EightBytes,
    Wraps64,
    Wraps32,
    TenBeforeFile,
    SixteenAfterOne,
    SixteenAfterFile,
    SixteenAfterTen,
    NoThreads,
    SeventeenThreads,
    NotSixteenThreads,
    ThreadsOfEightBits,
    ThreadsOf32Bits,
    PlaceIsThreads,

    // What is written.
    ClearsBehind,
    LowerCase,
    CountsWanted,
    CountsBytes,
    WritesThough10,
    EndedByNought,
}

pub const WRONG: [Loading; 57] = [
    Loading::LowerBits,
    Loading::BeforeReplaced,
    Loading::WholeNumber,
    Loading::UpperFifteen,
    Loading::Scaled,
    Loading::AddsFirst,
    Loading::SeedOfSixteenBits,
    Loading::WideNumber,
    Loading::NoDrawForOne,
    Loading::TwoDraws,
    Loading::NoDrawForDue,
    Loading::RegionFirst,
    Loading::WaitsFirst,
    Loading::RunsFirst,
    Loading::ThreadsFalling,
    Loading::RegionsFalling,
    Loading::WaitersLast,
    Loading::Rechecks,
    Loading::NoWaits,
    Loading::NoDueWaits,
    Loading::OneThreadMore,
    Loading::OneThreadLess,
    Loading::FromThreadOne,
    Loading::AllThreads,
    Loading::ResumeByNumber,
    Loading::AnyResumes,
    Loading::ResumeAmongAll,
    Loading::NobodyResumes,
    Loading::OthersWhileDue,
    Loading::NewcomersYield,
    Loading::AnyRegion,
    Loading::FromLowestValues,
    Loading::OneFrameLess,
    Loading::StopsWhenOneWaits,
    Loading::StopsAtOneFrame,
    Loading::TenByOutcome,
    Loading::TenByOneMore,
    Loading::SixBytes,
    Loading::EightBytes,
    Loading::Wraps64,
    Loading::Wraps32,
    Loading::TenBeforeFile,
    Loading::SixteenAfterOne,
    Loading::SixteenAfterFile,
    Loading::SixteenAfterTen,
    Loading::NoThreads,
    Loading::SeventeenThreads,
    Loading::NotSixteenThreads,
    Loading::ThreadsOfEightBits,
    Loading::ThreadsOf32Bits,
    Loading::PlaceIsThreads,
    Loading::ClearsBehind,
    Loading::LowerCase,
    Loading::CountsWanted,
    Loading::CountsBytes,
    Loading::WritesThough10,
    Loading::EndedByNought,
];

/// What stands in the buffer before.
pub const BEFORE: u8 = 0xA5;

/// The answer's number and places, the count, and every byte of the buffer.
pub type Given = ((u8, usize, usize), usize, Vec<u8>);

/// What such a program gives.
pub fn given(file: &[u8], ask: Ask, loading: Loading) -> Given {
    let mut buffer = vec![BEFORE; ask.room];
    let refused =
        |answer: Answer, buffer| ((answer.number, answer.first, answer.second), 0, buffer);
    let frames = match made(file, ask, loading) {
        Ok(frames) => frames,
        Err(answer) => {
            if loading == Loading::WritesThough10 && answer.number == 10 {
                let lines = lines(&made(file, Ask { room: usize::MAX, wanted: 1, ..ask }, loading));
                let most = ask.room.min(lines.len());
                buffer[..most].copy_from_slice(&lines[..most]);
            }
            return refused(answer, buffer);
        }
    };
    let mut bytes = lines(&Ok(frames.clone()));
    match loading {
        Loading::LowerCase => bytes.make_ascii_lowercase(),
        Loading::EndedByNought => bytes.push(0),
        Loading::ClearsBehind => bytes.resize(ask.room, 0),
        _ => (),
    }
    let most = ask.room.min(bytes.len());
    buffer[..most].copy_from_slice(&bytes[..most]);
    let count = match loading {
        Loading::CountsWanted => ask.wanted,
        Loading::CountsBytes => 7 * frames.len(),
        _ => frames.len(),
    };
    ((0, 0, 0), count, buffer)
}

fn lines(frames: &Result<Vec<Frame>, Answer>) -> Vec<u8> {
    let line = |f: &Frame| format!("{:02X}{:02X}{:02X}\n", f.thread, f.region, u8::from(f.flag));
    frames.iter().flatten().map(line).collect::<String>().into_bytes()
}

fn made(file: &[u8], ask: Ask, loading: Loading) -> Result<Vec<Frame>, Answer> {
    let Ask { seed, mut threads, wanted, room } = ask;
    match loading {
        Loading::ThreadsOfEightBits => threads %= 1 << 8,
        Loading::ThreadsOf32Bits => threads %= 1 << 32,
        _ => (),
    }
    let is_good = match loading {
        Loading::NoThreads => threads <= THREADS,
        Loading::SeventeenThreads => (1..=THREADS + 1).contains(&threads),
        Loading::NotSixteenThreads => (1..THREADS).contains(&threads),
        _ => (1..=THREADS).contains(&threads),
    };
    let place = if loading == Loading::PlaceIsThreads { threads } else { 0 };
    let sixteen = if is_good { Ok(()) } else { Err(Answer::at(16, place)) };
    let per_frame = match loading {
        Loading::SixBytes => 6,
        Loading::EightBytes => 8,
        _ => 7,
    };
    let needed = per_frame * wanted as u128;
    let short = match loading {
        Loading::TenByOutcome => false,
        Loading::TenByOneMore => room as u128 <= needed,
        Loading::Wraps64 => (room as u128) < needed % (1 << 64),
        Loading::Wraps32 => (room as u128) < needed % (1 << 32),
        _ => (room as u128) < needed,
    };
    let ten = if short { Err(Answer::at(10, 0)) } else { Ok(()) };
    let monitor = match loading {
        Loading::SixteenAfterOne if file.len() > 8192 => check(file)?,
        Loading::SixteenAfterFile => check(file).and_then(|monitor| sixteen.map(|()| monitor))?,
        Loading::SixteenAfterTen => {
            let monitor = check(file)?;
            ten?;
            sixteen?;
            monitor
        }
        Loading::TenBeforeFile => sixteen.and(ten).and_then(|()| check(file))?,
        _ => sixteen.and_then(|()| check(file))?,
    };
    ten?;
    let mut run = Run::new(monitor, loading);
    let numbers = match loading {
        Loading::OneThreadMore => 0..(threads + 1).min(THREADS),
        Loading::OneThreadLess => 0..threads - 1,
        Loading::FromThreadOne => 1..(threads + 1).min(THREADS),
        Loading::AllThreads => 0..THREADS,
        _ => 0..threads.min(THREADS),
    };
    let wanted = match loading {
        Loading::OneFrameLess => wanted.saturating_sub(1),
        // No more than there is room for.
        Loading::Wraps64 | Loading::Wraps32 => wanted.min(room / 7),
        _ => wanted,
    };
    let mut number = u64::from(match loading {
        Loading::SeedOfSixteenBits => seed % 65_536,
        _ => seed,
    });
    let mut frames = Vec::new();
    while frames.len() < wanted {
        let allowed = run.allowed(numbers.clone());
        let stops = match loading {
            Loading::StopsAtOneFrame => allowed.len() < 2,
            Loading::StopsWhenOneWaits => !run.queue.is_empty(),
            _ => allowed.is_empty(),
        };
        if stops {
            break;
        }
        let is_due = matches!(run.places[allowed[0].thread], Place::Due(_));
        let index = match loading {
            Loading::NoDrawForOne if allowed.len() == 1 => 0,
            Loading::NoDrawForDue if is_due => 0,
            Loading::TwoDraws => {
                let mut threads: Vec<usize> = allowed.iter().map(|frame| frame.thread).collect();
                threads.dedup();
                let thread = threads[drawn(&mut number, loading, threads.len())];
                let first = allowed.iter().position(|frame| frame.thread == thread).unwrap();
                let count = allowed.iter().filter(|frame| frame.thread == thread).count();
                first + drawn(&mut number, loading, count)
            }
            _ => drawn(&mut number, loading, allowed.len()),
        };
        run.take(allowed[index]);
        frames.push(allowed[index]);
        if loading == Loading::TenByOutcome && 7 * frames.len() > room {
            return Err(Answer::at(10, 0));
        }
    }
    Ok(frames)
}

/// The place of the frame that is taken of so many.
fn drawn(number: &mut u64, loading: Loading, count: usize) -> usize {
    let (by, and) = (1_664_525_u64, 1_013_904_223_u64);
    let before = *number;
    let wide = match loading {
        Loading::AddsFirst => (before + and).wrapping_mul(by),
        _ => before.wrapping_mul(by).wrapping_add(and),
    };
    *number = if loading == Loading::WideNumber { wide } else { wide % (1 << 32) };
    let upper = *number >> 16;
    let draw = match loading {
        Loading::LowerBits => *number % 65_536,
        Loading::BeforeReplaced => before >> 16,
        Loading::WholeNumber => *number,
        Loading::UpperFifteen => *number >> 17,
        Loading::Scaled => return (upper as usize * count) >> 16,
        _ => upper,
    };
    (draw % count as u64) as usize
}

struct Run {
    monitor: Monitor,
    loading: Loading,
    values: Vec<i64>,
    places: [Place; THREADS],
    told: [bool; THREADS],
    /// The waiters by arrival.
    queue: Vec<usize>,
}

impl Run {
    fn new(monitor: Monitor, loading: Loading) -> Run {
        let values = match loading {
            Loading::FromLowestValues => monitor.variables.iter().map(|v| v.lowest).collect(),
            _ => monitor.start_values(),
        };
        let (places, told) = ([Place::Idle; THREADS], [false; THREADS]);
        Run { monitor, loading, values, places, told, queue: Vec::new() }
    }

    fn guard_of(&self, thread: usize) -> Option<usize> {
        match self.places[thread] {
            Place::Waiting(region) => Some(self.monitor.regions[region].guard),
            _ => None,
        }
    }

    fn holds(&self, guard: usize) -> bool {
        self.monitor.guard_holds(guard, &self.values)
    }

    fn allowed(&self, threads: std::ops::Range<usize>) -> Vec<Frame> {
        let due = self.places.iter().position(|place| matches!(place, Place::Due(_)));
        let mut allowed = Vec::new();
        for thread in threads {
            if due.is_some_and(|due| due != thread) && self.loading != Loading::OthersWhileDue {
                continue;
            }
            allowed.extend(self.frames_of(thread));
        }
        let is_waiting = |frame: &Frame| matches!(self.places[frame.thread], Place::Waiting(_));
        match self.loading {
            Loading::RegionFirst => allowed.sort_by_key(|frame| (frame.region, frame.thread)),
            Loading::WaitsFirst => allowed.sort_by_key(|frame| frame.flag),
            Loading::RunsFirst => allowed.sort_by_key(|frame| !frame.flag),
            Loading::WaitersLast => allowed.sort_by_key(is_waiting),
            Loading::ThreadsFalling => {
                allowed.sort_by_key(|frame| (THREADS - frame.thread, frame.region));
            }
            Loading::RegionsFalling => {
                allowed.sort_by_key(|frame| (frame.thread, THREADS - frame.region));
            }
            _ => (),
        }
        allowed
    }

    fn frames_of(&self, thread: usize) -> Vec<Frame> {
        let regions = &self.monitor.regions;
        let frame =
            |region: usize| Frame { thread, region, flag: self.holds(regions[region].guard) };
        match self.places[thread] {
            Place::Due(region) => {
                let frame = frame(region);
                let is_left_out = self.loading == Loading::NoDueWaits && !frame.flag;
                if is_left_out {
                    vec![]
                } else {
                    vec![frame]
                }
            }
            Place::Waiting(region) => {
                let frame = frame(region);
                let is_allowed = match frame.flag {
                    true => self.resumes(thread, regions[region].guard),
                    false => self.loading == Loading::Rechecks && self.told[thread],
                };
                if is_allowed {
                    vec![frame]
                } else {
                    vec![]
                }
            }
            Place::Idle => {
                let begins =
                    |at: &usize| regions[*at].is_first || self.loading == Loading::AnyRegion;
                let is_allowed = |frame: &Frame| match self.loading {
                    Loading::NoWaits => frame.flag,
                    Loading::NewcomersYield => {
                        let guard = Some(regions[frame.region].guard);
                        !frame.flag || self.queue.iter().all(|t| self.guard_of(*t) != guard)
                    }
                    _ => true,
                };
                (0..regions.len()).filter(begins).map(frame).filter(is_allowed).collect()
            }
        }
    }

    fn resumes(&self, thread: usize, guard: usize) -> bool {
        let mut told: Vec<usize> = self.queue.iter().copied().filter(|t| self.told[*t]).collect();
        match self.loading {
            Loading::AnyResumes => return self.told[thread],
            Loading::NobodyResumes => return false,
            Loading::ResumeAmongAll => return told.first() == Some(&thread),
            Loading::ResumeByNumber => told.sort(),
            _ => (),
        }
        told.into_iter().find(|t| self.guard_of(*t) == Some(guard)) == Some(thread)
    }

    fn take(&mut self, Frame { thread, region, flag }: Frame) {
        if !flag {
            if self.guard_of(thread).is_none() {
                self.queue.push(thread);
            }
            self.told[thread] = false;
            self.places[thread] = Place::Waiting(region);
            return;
        }
        self.values = after(&self.monitor, region, &self.values);
        self.queue.retain(|other| *other != thread);
        self.told[thread] = false;
        self.places[thread] = self.monitor.regions[region].next.map_or(Place::Idle, Place::Due);
        for waiter in self.queue.clone() {
            self.told[waiter] |= self.holds(self.guard_of(waiter).expect("a waiter"));
        }
    }
}
