//! Traces and both machines: refusals 12 to 14. A machine asks of a monitor only
//! which guards hold in a state and which state a body leads to.

use crate::check::Checked;
use crate::table::Entry;
use crate::Refusal;

pub const THREADS: usize = 16;
const MOST_GUARDS: usize = 16;

#[derive(Clone, Copy, Debug, PartialEq, Eq)]
pub struct Frame {
    pub thread: u8,
    pub region: u8,
    /// The guard held and the body ran.
    pub flag: bool,
}

#[derive(Clone, Copy, Debug, PartialEq, Eq)]
pub enum Place {
    Idle,
    Waiting(u8),
    Due(u8),
}

#[derive(Clone, Copy, Debug, PartialEq, Eq)]
pub enum Machine {
    Plain,
    Table,
}

/// The record of a run.
#[derive(Clone, Debug)]
pub struct Run {
    pub state: u16,
    pub places: [Place; THREADS],
    /// The notified threads, one bit a thread.
    pub notified: u16,
    /// How many of all who wait began before a waiting thread; 0 of any other.
    pub turns: [u8; THREADS],
}

/// The frames of a trace, or refusal 12 at the first line that is none.
pub fn frames(trace: &[u8]) -> Result<Vec<Frame>, Refusal> {
    let mut frames = Vec::with_capacity(trace.len() / 7);
    for line in trace.chunks(7) {
        frames.push(frame(line).ok_or(Refusal::at(12, frames.len()))?);
    }
    Ok(frames)
}

fn frame(line: &[u8]) -> Option<Frame> {
    let &[a, b, c, d, e, f, b'\n'] = line else {
        return None;
    };
    let thread = pair(a, b)?;
    let region = pair(c, d)?;
    let flag = pair(e, f)?;
    (thread < 16 && flag < 2).then_some(Frame { thread, region, flag: flag == 1 })
}

fn pair(high: u8, low: u8) -> Option<u8> {
    Some(digit(high)? << 4 | digit(low)?)
}

fn digit(byte: u8) -> Option<u8> {
    match byte {
        b'0'..=b'9' => Some(byte - b'0'),
        b'A'..=b'F' => Some(byte - b'A' + 10),
        _ => None,
    }
}

/// A region's entries as sets of guards, one bit a guard.
#[derive(Clone, Copy, Default)]
struct Wakes {
    any: u16,
    unconditional: u16,
    broadcast: u16,
}

/// A checked monitor with its table, on which both machines run.
pub struct Machines<'a> {
    checked: &'a Checked,
    /// The guard of each region.
    guard_of: Vec<u8>,
    wakes: Vec<Wakes>,
}

impl<'a> Machines<'a> {
    pub fn new(checked: &'a Checked, entries: &[Entry]) -> Machines<'a> {
        let regions = &checked.monitor.regions;
        let mut wakes = vec![Wakes::default(); regions.len()];
        for entry in entries {
            let wakes = &mut wakes[entry.region];
            wakes.any |= 1 << entry.guard;
            wakes.unconditional |= u16::from(entry.unconditional) << entry.guard;
            wakes.broadcast |= u16::from(entry.broadcast) << entry.guard;
        }
        let guard_of = regions.iter().map(|region| region.guard as u8).collect();
        Machines { checked, guard_of, wakes }
    }

    /// The run of a whole trace from the start values, or the first refusal 13 or 14.
    pub fn run(&self, frames: &[Frame], machine: Machine) -> Result<Run, Refusal> {
        let mut run = self.start();
        for (index, frame) in frames.iter().enumerate() {
            self.step(&mut run, *frame, machine).map_err(|number| Refusal::at(number, index))?;
        }
        Ok(run)
    }

    /// A run at the start values, all idle and none notified.
    pub fn start(&self) -> Run {
        let monitor = &self.checked.monitor;
        let state = monitor.number_of(&monitor.start_values()) as u16;
        Run { state, places: [Place::Idle; THREADS], notified: 0, turns: [0; THREADS] }
    }

    /// One frame; a refusal's number, 13 or 14, leaves the run as it was.
    pub fn step(&self, run: &mut Run, frame: Frame, machine: Machine) -> Result<(), u8> {
        let Frame { thread, region, flag } = frame;
        let thread = usize::from(thread);
        let place = run.places[thread];
        if !self.may_be_at(run, thread, region) {
            return Err(13);
        }
        let guard = self.guard_of[usize::from(region)];
        let truth = self.checked.truths[usize::from(run.state)] >> guard & 1 == 1;
        if flag != truth {
            return Err(14);
        }
        let is_waiting = matches!(place, Place::Waiting(_));
        let own = 1 << thread;
        if is_waiting {
            if run.notified & own == 0 {
                return Err(14);
            }
            let notified = self.waiters(run)[usize::from(guard)] & run.notified;
            if flag && run.earliest(notified) != own {
                return Err(14);
            }
        }
        if flag {
            if is_waiting {
                run.leave(thread);
            }
            self.run_body(run, thread, region, machine);
        } else if is_waiting {
            // A recheck uses up the notice and keeps its turn.
            run.notified &= !own;
        } else {
            run.turns[thread] = run.count_of_waiters();
            run.places[thread] = Place::Waiting(region);
        }
        Ok(())
    }

    fn may_be_at(&self, run: &Run, thread: usize, region: u8) -> bool {
        let due = run.places.iter().position(|place| matches!(place, Place::Due(_)));
        if due.is_some_and(|due| due != thread) {
            return false;
        }
        match run.places[thread] {
            Place::Idle => {
                self.checked.monitor.regions.get(usize::from(region)).is_some_and(|r| r.is_first)
            }
            Place::Waiting(at) | Place::Due(at) => at == region,
        }
    }

    /// The threads that wait on each guard, one bit a thread.
    fn waiters(&self, run: &Run) -> [u16; MOST_GUARDS] {
        let mut waiters = [0; MOST_GUARDS];
        for (thread, place) in run.places.iter().enumerate() {
            if let Place::Waiting(region) = *place {
                waiters[usize::from(self.guard_of[usize::from(region)])] |= 1 << thread;
            }
        }
        waiters
    }

    fn run_body(&self, run: &mut Run, thread: usize, region: u8, machine: Machine) {
        run.state = self.checked.after[usize::from(region)][usize::from(run.state)];
        run.notified &= !(1 << thread);
        run.places[thread] = if self.checked.monitor.regions[usize::from(region)].is_last {
            Place::Idle
        } else {
            Place::Due(region + 1)
        };
        let truths = self.checked.truths[usize::from(run.state)];
        run.notified |= match machine {
            Machine::Plain => self.told_plain(run, truths),
            Machine::Table => self.told_by_table(run, truths, self.wakes[usize::from(region)]),
        };
    }

    /// Every waiter whose guard holds.
    fn told_plain(&self, run: &Run, truths: u16) -> u16 {
        let mut told = 0;
        for (thread, place) in run.places.iter().enumerate() {
            if let Place::Waiting(region) = *place {
                told |= (truths >> self.guard_of[usize::from(region)] & 1) << thread;
            }
        }
        told
    }

    /// Those whom a region's entries notify: of a signal's guard the first waiter.
    fn told_by_table(&self, run: &Run, truths: u16, wakes: Wakes) -> u16 {
        let acting = wakes.any & (wakes.unconditional | truths);
        if acting == 0 {
            return 0;
        }
        let waiters = self.waiters(run);
        members(acting).fold(0, |told, guard| match wakes.broadcast >> guard & 1 {
            1 => told | waiters[guard],
            _ => told | run.earliest(waiters[guard]),
        })
    }
}

impl Run {
    fn count_of_waiters(&self) -> u8 {
        self.places.iter().filter(|place| matches!(place, Place::Waiting(_))).count() as u8
    }

    /// A waiter leaves, and those behind it close up.
    fn leave(&mut self, thread: usize) {
        let own = std::mem::take(&mut self.turns[thread]);
        for turn in &mut self.turns {
            *turn -= u8::from(*turn > own);
        }
    }

    /// Of a set of waiters the one that has waited longest, as a set.
    fn earliest(&self, waiters: u16) -> u16 {
        let first = members(waiters).min_by_key(|thread| self.turns[*thread]);
        first.map_or(0, |thread| 1 << thread)
    }
}

/// The numbers in a set of sixteen bits.
pub fn members(set: u16) -> impl Iterator<Item = usize> {
    let mut left = set;
    std::iter::from_fn(move || {
        let member = (left != 0).then_some(left.trailing_zeros() as usize);
        left &= left.wrapping_sub(1);
        member
    })
}

#[cfg(test)]
mod tests {
    use super::{frames, Machine, Machines, Place};
    use crate::check::check;
    use crate::table::place;

    /// The waiters at the end of a run, by turn, or the refusal's number and frame.
    type Ended = Result<Vec<usize>, (u8, usize)>;

    /// What both machines say to the frames. A thread that begins at region 0 is due at region 1
    /// and gets there; region 2 gets and region 3 puts.
    fn both(frames_of: &str) -> [Ended; 2] {
        let file = "monitor m { var x = 0 in 0..1; keep true;
            method a { waituntil (true) { } waituntil (x == 1) { x := 0; } }
            method b { waituntil (x == 1) { x := 0; } }
            method c { waituntil (x == 0) { x := 1; } } }";
        let checked = check(file.as_bytes()).expect("an accepted file");
        let machines = Machines::new(&checked, &place(&checked).entries);
        let trace: String = frames_of.split(' ').map(|frame| format!("{frame}\n")).collect();
        let frames = frames(trace.as_bytes()).expect("frames");
        [Machine::Plain, Machine::Table].map(|machine| {
            let run = machines.run(&frames, machine).map_err(|r| (r.number, r.first))?;
            let waits = |thread: &usize| matches!(run.places[*thread], Place::Waiting(_));
            let mut waiters: Vec<usize> = (0..run.places.len()).filter(waits).collect();
            waiters.sort_by_key(|thread| run.turns[*thread]);
            let turns: Vec<usize> =
                waiters.iter().map(|thread| usize::from(run.turns[*thread])).collect();
            assert!(turns.into_iter().eq(0..waiters.len()));
            Ok(waiters)
        })
    }

    #[test]
    fn the_earliest_waiter_resumes() {
        let waits = "090200 000200 050200 030301";
        assert_eq!(both(waits), [Ok(vec![9, 0, 5]), Ok(vec![9, 0, 5])]);
        assert_eq!(both(&format!("{waits} 090201")), [Ok(vec![0, 5]), Ok(vec![0, 5])]);
        assert_eq!(both(&format!("{waits} 000201")), [Err((14, 4)), Err((14, 4))]);
    }

    #[test]
    fn a_recheck_keeps_its_turn() {
        // Thread 3 puts, thread 4 gets before thread 9, which finds nothing; thread 3 puts again.
        let again = "090200 000200 030301 040201 090200 030301";
        assert_eq!(both(&format!("{again} 090201")), [Ok(vec![0]), Ok(vec![0])]);
        assert_eq!(both(&format!("{again} 000201")), [Err((14, 6)), Err((14, 6))]);
        // Told twice, thread 9 alone has a notice on the table's machine.
        let twice = "090200 000200 030301 040201 030301 040201 000200";
        assert_eq!(both(twice), [Ok(vec![9, 0]), Err((14, 6))]);
    }

    #[test]
    fn a_due_thread_waits_at_the_back() {
        let waits = "090200 000001 000100 030301";
        assert_eq!(both(&format!("{waits} 090201 000001")), [Err((13, 5)), Err((13, 5))]);
        assert_eq!(both(&format!("{waits} 090201")), [Ok(vec![0]), Ok(vec![0])]);
        assert_eq!(both(&format!("{waits} 000101")), [Err((14, 4)), Err((14, 4))]);
    }
}
