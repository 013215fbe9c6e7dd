//! The plain machine and the table's ("Frames and the two machines"), and the
//! refusals 11, 13 and 14. Who is first on a guard goes by arrival (document 02, E4).

use crate::answer::Answer;
use crate::check::check;
use crate::frames::{frames, Frame, THREADS};
use crate::monitor::Monitor;
use crate::table::{after, entries, Entry};

#[derive(Clone, Copy, Debug, PartialEq, Eq)]
pub enum Machine {
    Plain,
    Table,
}

#[derive(Clone, Copy, Debug, PartialEq, Eq)]
pub enum Place {
    Idle,
    Waiting(usize),
    Due(usize),
}

impl Place {
    /// As `runner` prints it: FF idle, 00 to 0F waiting at that region, 10 to 1F due
    /// at that region plus 16.
    pub fn byte(self) -> u8 {
        match self {
            Place::Idle => 0xFF,
            Place::Waiting(region) => region as u8,
            Place::Due(region) => region as u8 + 0x10,
        }
    }
}

/// Where a run stands: the values, each thread's place, who is notified, and the turns.
#[derive(Clone, Debug, PartialEq, Eq)]
pub struct Record {
    pub values: Vec<i64>,
    pub places: [Place; THREADS],
    pub notified: [bool; THREADS],
    /// Of a waiter, how many of all who wait, on whichever guard, began before it; of any
    /// other thread 0.
    pub turns: [u8; THREADS],
}

impl Record {
    /// At the start all are idle and none notified.
    fn start(values: Vec<i64>) -> Record {
        Record {
            values,
            places: [Place::Idle; THREADS],
            notified: [false; THREADS],
            turns: [0; THREADS],
        }
    }

    /// The notified threads as sixteen bits, thread 0 the lowest bit.
    pub fn notified_bits(&self) -> u16 {
        (0..THREADS).filter(|thread| self.notified[*thread]).map(|thread| 1 << thread).sum()
    }

    /// How many are notified.
    pub fn how_many(&self) -> usize {
        self.notified.iter().filter(|notified| **notified).count()
    }

    pub fn is_waiting(&self, thread: usize) -> bool {
        matches!(self.places[thread], Place::Waiting(_))
    }

    /// The threads waiting on a guard, at whichever region, the earliest to begin first.
    pub fn waiters(&self, monitor: &Monitor, guard: usize) -> Vec<usize> {
        let waits = |place| match place {
            Place::Waiting(region) => monitor.regions[region].guard == guard,
            _ => false,
        };
        let mut waiters: Vec<usize> =
            (0..THREADS).filter(|thread| waits(self.places[*thread])).collect();
        waiters.sort_by_key(|thread| self.turns[*thread]);
        waiters
    }

    /// A thread that was not waiting begins to wait, behind all who wait already.
    fn begin_to_wait(&mut self, thread: usize, region: usize) {
        self.turns[thread] = (0..THREADS).filter(|other| self.is_waiting(*other)).count() as u8;
        self.places[thread] = Place::Waiting(region);
    }

    /// After its body a thread is no waiter: those who began after it close up.
    fn leave_the_queue(&mut self, thread: usize) {
        for other in 0..THREADS {
            if self.is_waiting(other) && self.turns[other] > self.turns[thread] {
                self.turns[other] -= 1;
            }
        }
        self.turns[thread] = 0;
    }

    /// The due thread, if there is one; it is the only one.
    fn due(&self) -> Option<usize> {
        self.places.iter().position(|place| matches!(place, Place::Due(_)))
    }
}

/// A monitor with the entries of its table, on which both machines run.
pub struct Machines {
    pub monitor: Monitor,
    pub entries: Vec<Entry>,
}

impl Machines {
    pub fn of(monitor: Monitor) -> Machines {
        let entries = entries(&monitor);
        Machines { monitor, entries }
    }

    /// The record at the start, or refusal 11: no such state, or one that does
    /// not meet the kept condition.
    pub fn start(&self, number: usize) -> Result<Record, Answer> {
        if number >= self.monitor.count_of_states() {
            return Err(Answer::at(11, 0));
        }
        let values = self.monitor.state_values(number);
        if !self.monitor.is_kept(&values) {
            return Err(Answer::at(11, 0));
        }
        Ok(Record::start(values))
    }

    /// Runs a whole trace: 11, then 12 over all lines, then 13 and 14 frame by
    /// frame.
    pub fn run(&self, trace: &[u8], start: usize, machine: Machine) -> Result<Record, Answer> {
        let mut record = self.start(start)?;
        for (index, frame) in frames(trace)?.into_iter().enumerate() {
            record = self.step(&record, frame, machine).map_err(|n| Answer::at(n, index))?;
        }
        Ok(record)
    }

    /// The record after one frame, or the number that refuses it, 13 or 14.
    pub fn step(&self, record: &Record, frame: Frame, machine: Machine) -> Result<Record, u8> {
        if !self.may_be_at(record, frame.thread, frame.region) {
            return Err(13);
        }
        if !self.allows(record, frame) {
            return Err(14);
        }
        let mut next = record.clone();
        if frame.flag {
            self.run_body(&mut next, frame, machine);
        } else if record.is_waiting(frame.thread) {
            // A recheck uses up the notice, and keeps its place in the queue.
            next.notified[frame.thread] = false;
        } else {
            // Idle or due before, it begins to wait now.
            next.begin_to_wait(frame.thread, frame.region);
        }
        Ok(next)
    }

    /// Whether the thread may be at that region now. If not, this is 13.
    pub fn may_be_at(&self, record: &Record, thread: usize, region: usize) -> bool {
        if region >= self.monitor.regions.len() {
            return false;
        }
        if record.due().is_some_and(|due| due != thread) {
            return false;
        }
        match record.places[thread] {
            Place::Due(due_at) => region == due_at,
            Place::Waiting(waiting_at) => region == waiting_at,
            Place::Idle => self.monitor.regions[region].is_first,
        }
    }

    /// Whether the event is allowed. If not, this is 14.
    fn allows(&self, record: &Record, frame: Frame) -> bool {
        let guard = self.monitor.regions[frame.region].guard;
        if frame.flag != self.monitor.guard_holds(guard, &record.values) {
            return false;
        }
        if !record.is_waiting(frame.thread) {
            return true;
        }
        // A waiting thread must be notified, and to run its body must also be the
        // earliest to begin waiting among those notified on its guard.
        let waiters = record.waiters(&self.monitor, guard);
        let earliest = waiters.into_iter().find(|thread| record.notified[*thread]);
        record.notified[frame.thread] && (!frame.flag || earliest == Some(frame.thread))
    }

    fn run_body(&self, record: &mut Record, frame: Frame, machine: Machine) {
        record.values = after(&self.monitor, frame.region, &record.values);
        // The thread is no waiter and not notified before any notice is given.
        if record.is_waiting(frame.thread) {
            record.leave_the_queue(frame.thread);
        }
        record.notified[frame.thread] = false;
        record.places[frame.thread] = match self.monitor.regions[frame.region].next {
            Some(next) => Place::Due(next),
            None => Place::Idle,
        };
        match machine {
            Machine::Plain => self.notify_all(record),
            Machine::Table => self.notify_by_table(record, frame.region),
        }
    }

    /// The plain machine notifies every waiter whose guard holds.
    fn notify_all(&self, record: &mut Record) {
        for guard in 0..self.monitor.guards.len() {
            if self.monitor.guard_holds(guard, &record.values) {
                for waiter in record.waiters(&self.monitor, guard) {
                    record.notified[waiter] = true;
                }
            }
        }
    }

    /// The table's machine takes the region's entries: a conditional one acts only
    /// if its guard holds; a signal picks the first waiter, the earliest, notified already
    /// or not, a broadcast all.
    fn notify_by_table(&self, record: &mut Record, region: usize) {
        for entry in self.entries.iter().filter(|entry| entry.region == region) {
            if entry.unconditional || self.monitor.guard_holds(entry.guard, &record.values) {
                let waiters = record.waiters(&self.monitor, entry.guard);
                let picked = if entry.broadcast { waiters.len() } else { 1 };
                for waiter in waiters.into_iter().take(picked) {
                    record.notified[waiter] = true;
                }
            }
        }
    }
}

/// Runs a trace on a file from the state with the given number: the refusals of
/// the file, then 11 to 14, or the record at the end.
pub fn run(file: &[u8], trace: &[u8], start: usize, machine: Machine) -> Result<Record, Answer> {
    Machines::of(check(file)?).run(trace, start, machine)
}
