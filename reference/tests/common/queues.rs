//! Both machines once more, with a queue that can be kept wrongly: so that tests can say which
//! wrong programs a case or a drawn trace tells from the right one.

use reference::check;
use reference::frames::{frames, Frame, THREADS};
use reference::lines::MOST_TRACE_BYTES;
use reference::machines::{Machine, Machines, Place};
use reference::table::after;

/// How a program keeps and asks its queue.
#[derive(Clone, Copy, Debug, PartialEq, Eq)]
pub enum Queueing {
    Right,
    /// Signals pick and waiters resume by number.
    ByNumber,
    SignalByNumber,
    ResumeByNumber,
    /// A signal picks the earliest who has no notice yet.
    SignalPastNotified,
    /// A waiter must be the earliest of all notified, on whichever guard.
    ResumeAmongAll,
    RecheckToBack,
    /// A due thread that gets 00 stands before all.
    DueToFront,
    /// A waiter that resumes and waits at its next region has its old place.
    DueKeepsPlace,
    /// The latest to begin waiting is chosen.
    LatestFirst,
    /// Who arrives stands before the others of its guard.
    BeforeItsGuard,
    /// Who arrives stands right behind the others of its guard, before those of other guards.
    BehindItsGuard,
    /// The waiters of a guard go by region, then by arrival.
    ByRegion,
    /// The waiters of a guard go by when they were told, then by number.
    ByNotice,
    /// The last one fills the place of one that leaves.
    LastFillsGap,
    /// A turn stays what it was at the arrival.
    NotClosedUp,
    /// A turn is a growing number of eight bits.
    Tickets,
    /// Turns count those of the same guard.
    TurnsByGuard,
    /// A thread that leaves keeps its turn.
    StaleTurns,
    /// An idle thread may not run its body while one waits on that guard.
    NewcomersYield,
    /// Nor may a due one.
    DueYield,
}

pub const WRONG: [Queueing; 20] = [
    Queueing::ByNumber,
    Queueing::SignalByNumber,
    Queueing::ResumeByNumber,
    Queueing::SignalPastNotified,
    Queueing::ResumeAmongAll,
    Queueing::RecheckToBack,
    Queueing::DueToFront,
    Queueing::DueKeepsPlace,
    Queueing::LatestFirst,
    Queueing::BeforeItsGuard,
    Queueing::BehindItsGuard,
    Queueing::ByRegion,
    Queueing::ByNotice,
    Queueing::LastFillsGap,
    Queueing::NotClosedUp,
    Queueing::Tickets,
    Queueing::TurnsByGuard,
    Queueing::StaleTurns,
    Queueing::NewcomersYield,
    Queueing::DueYield,
];

/// Those that choose rightly and keep other numbers: only points show them.
pub const WRONG_NUMBERS: [Queueing; 3] =
    [Queueing::BehindItsGuard, Queueing::TurnsByGuard, Queueing::StaleTurns];

/// What can be seen of a run: the values, the places, who is notified, the turns.
#[derive(Clone, Debug, PartialEq)]
pub struct Shown {
    pub values: Vec<i64>,
    pub places: [Place; THREADS],
    pub notified: [bool; THREADS],
    pub turns: [u8; THREADS],
}

/// A machine's records at its points, and the number and frame of its refusal, if any.
#[derive(Clone, Debug, PartialEq)]
pub struct Ran {
    pub points: Vec<Shown>,
    pub refusal: Option<(u8, usize)>,
}

/// The runs of both machines that keep their queue so.
pub fn runs(machines: &Machines, start: &[i64], frames: &[Frame], queueing: Queueing) -> [Ran; 2] {
    [Machine::Plain, Machine::Table].map(|machine| {
        let mut run = Run::new(machines, start, machine, queueing);
        let mut points = vec![run.shown()];
        for (index, frame) in frames.iter().enumerate() {
            if let Err(number) = run.step(*frame) {
                return Ran { points, refusal: Some((number, index)) };
            }
            points.push(run.shown());
        }
        Ran { points, refusal: None }
    })
}

/// What such a program would print: what `runner` does, and the points behind it. Nothing for a
/// file or a trace that is refused as a whole.
pub fn printed(file: &[u8], trace: &[u8], queueing: Queueing) -> Option<(String, String)> {
    let machines = Machines::of(check(file).ok()?);
    let frames = frames(&trace[..trace.len().min(MOST_TRACE_BYTES)]).ok()?;
    let [plain, table] = runs(&machines, &machines.monitor.start_values(), &frames, queueing);
    let line = |ran: &Ran| match ran.refusal {
        Some((number, frame)) => format!("{number} at {frame}"),
        None => {
            let last = ran.points.last().unwrap();
            format!("{:?} {:?}", last.values, last.places)
        }
    };
    let lines = line(&plain) + "\n" + &line(&table);
    // Of the table's machine a point has the notices alone.
    let told: Vec<_> = table.points.iter().map(|shown| shown.notified).collect();
    Some((lines, format!("{:?} {told:?}", plain.points)))
}

struct Run<'a> {
    machines: &'a Machines,
    machine: Machine,
    queueing: Queueing,
    values: Vec<i64>,
    places: [Place; THREADS],
    /// When each was told, if its notice is not used up: how many frames there were.
    told: [Option<usize>; THREADS],
    frames: usize,
    /// The waiters as they are kept.
    queue: Vec<usize>,
    /// The numbers that stay as they were, for those that keep such.
    kept: [u8; THREADS],
    arrivals: u8,
    /// The place in the queue that the thread which resumed last had.
    left: usize,
}

impl<'a> Run<'a> {
    fn new(machines: &'a Machines, start: &[i64], machine: Machine, queueing: Queueing) -> Self {
        Run {
            machines,
            machine,
            queueing,
            values: start.to_vec(),
            places: [Place::Idle; THREADS],
            told: [None; THREADS],
            frames: 0,
            queue: Vec::new(),
            kept: [0; THREADS],
            arrivals: 0,
            left: 0,
        }
    }

    fn guard_of(&self, thread: usize) -> Option<usize> {
        match self.places[thread] {
            Place::Waiting(region) => Some(self.machines.monitor.regions[region].guard),
            _ => None,
        }
    }

    fn step(&mut self, frame: Frame) -> Result<(), u8> {
        let Frame { thread, region, flag } = frame;
        self.frames += 1;
        let monitor = &self.machines.monitor;
        let is_due = |place: &Place| matches!(place, Place::Due(_));
        let may_be_at = region < monitor.regions.len()
            && (is_due(&self.places[thread]) || !self.places.iter().any(is_due))
            && match self.places[thread] {
                Place::Idle => monitor.regions[region].is_first,
                Place::Waiting(at) | Place::Due(at) => at == region,
            };
        if !may_be_at {
            return Err(13);
        }
        let guard = monitor.regions[region].guard;
        let waits = self.guard_of(thread).is_some();
        if flag != monitor.guard_holds(guard, &self.values)
            || waits && self.told[thread].is_none()
            || waits && flag && self.next_to_resume(guard) != Some(thread)
            || !waits && flag && self.yields(thread, guard)
        {
            return Err(14);
        }
        match (flag, waits) {
            (true, _) => self.run_body(thread, region),
            (false, true) => {
                self.told[thread] = None;
                if self.queueing == Queueing::RecheckToBack {
                    self.queue.retain(|other| *other != thread);
                    self.queue.push(thread);
                }
            }
            (false, false) => self.arrive(thread, region),
        }
        Ok(())
    }

    fn yields(&self, thread: usize, guard: usize) -> bool {
        let is_idle = self.places[thread] == Place::Idle;
        let asked = match self.queueing {
            Queueing::NewcomersYield => is_idle,
            Queueing::DueYield => !is_idle,
            _ => false,
        };
        asked && !self.waiters(guard).is_empty()
    }

    fn arrive(&mut self, thread: usize, region: usize) {
        let was_due = self.places[thread] != Place::Idle;
        self.places[thread] = Place::Waiting(region);
        let guard = self.guard_of(thread);
        let mut same = (0..self.queue.len()).filter(|at| self.guard_of(self.queue[*at]) == guard);
        let end = self.queue.len();
        let place = match self.queueing {
            Queueing::DueToFront if was_due => 0,
            Queueing::DueKeepsPlace if was_due => self.left.min(end),
            Queueing::BeforeItsGuard => same.next().unwrap_or(end),
            Queueing::BehindItsGuard => same.next_back().map_or(end, |last| last + 1),
            _ => end,
        };
        self.queue.insert(place, thread);
        self.kept[thread] = match self.queueing {
            Queueing::Tickets => self.arrivals,
            _ => end as u8,
        };
        self.arrivals = self.arrivals.wrapping_add(1);
    }

    fn leave(&mut self, thread: usize) {
        self.left = usize::MAX;
        if let Some(place) = self.queue.iter().position(|other| *other == thread) {
            self.left = place;
            match self.queueing {
                Queueing::LastFillsGap => self.queue.swap_remove(place),
                _ => self.queue.remove(place),
            };
            if self.queueing == Queueing::StaleTurns {
                self.kept[thread] = place as u8;
            }
        }
    }

    fn run_body(&mut self, thread: usize, region: usize) {
        self.values = after(&self.machines.monitor, region, &self.values);
        self.leave(thread);
        self.told[thread] = None;
        self.places[thread] =
            self.machines.monitor.regions[region].next.map_or(Place::Idle, Place::Due);
        let mut told = Vec::new();
        match self.machine {
            Machine::Plain => {
                let holds = |guard| self.machines.monitor.guard_holds(guard, &self.values);
                told.extend(self.queue.iter().filter(|t| holds(self.guard_of(**t).unwrap())));
            }
            Machine::Table => {
                for entry in self.machines.entries.iter().filter(|entry| entry.region == region) {
                    let holds = self.machines.monitor.guard_holds(entry.guard, &self.values);
                    if (entry.unconditional || holds) && entry.broadcast {
                        told.extend(self.waiters(entry.guard));
                    } else if entry.unconditional || holds {
                        told.extend(self.signalled(entry.guard));
                    }
                }
            }
        }
        for thread in told {
            self.told[thread] = self.told[thread].or(Some(self.frames));
        }
    }

    /// The waiters of a guard, the one to be chosen first.
    fn waiters(&self, guard: usize) -> Vec<usize> {
        let on_guard = |thread: &usize| self.guard_of(*thread) == Some(guard);
        let mut waiters: Vec<usize> = self.queue.iter().copied().filter(on_guard).collect();
        let region = |thread: &usize| self.places[*thread].byte();
        match self.queueing {
            Queueing::LatestFirst => waiters.reverse(),
            Queueing::ByNumber => waiters.sort(),
            Queueing::ByRegion => waiters.sort_by_key(region),
            Queueing::ByNotice => {
                waiters.sort_by_key(|t| (self.told[*t].is_none(), self.told[*t], *t))
            }
            Queueing::NotClosedUp | Queueing::Tickets => {
                waiters.sort_by_key(|thread| (self.kept[*thread], *thread));
            }
            _ => (),
        }
        waiters
    }

    fn signalled(&self, guard: usize) -> Option<usize> {
        let mut waiters = self.waiters(guard);
        match self.queueing {
            Queueing::SignalByNumber => waiters.sort(),
            Queueing::SignalPastNotified => waiters.retain(|thread| self.told[*thread].is_none()),
            _ => (),
        }
        waiters.first().copied()
    }

    fn next_to_resume(&self, guard: usize) -> Option<usize> {
        let mut waiters = match self.queueing {
            Queueing::ResumeAmongAll => self.queue.clone(),
            _ => self.waiters(guard),
        };
        if self.queueing == Queueing::ResumeByNumber {
            waiters.sort();
        }
        waiters.into_iter().find(|thread| self.told[*thread].is_some())
    }

    fn shown(&self) -> Shown {
        let turn = |thread: usize| {
            let place = self.queue.iter().position(|other| *other == thread);
            let Some(place) = place else {
                return if self.queueing == Queueing::StaleTurns { self.kept[thread] } else { 0 };
            };
            let guard = self.guard_of(thread);
            match self.queueing {
                Queueing::NotClosedUp | Queueing::Tickets => self.kept[thread],
                Queueing::TurnsByGuard => {
                    let ahead = self.queue[..place].iter();
                    ahead.filter(|other| self.guard_of(**other) == guard).count() as u8
                }
                _ => place as u8,
            }
        };
        let threads: [usize; THREADS] = std::array::from_fn(|thread| thread);
        Shown {
            values: self.values.clone(),
            places: self.places,
            notified: self.told.map(|told| told.is_some()),
            turns: threads.map(turn),
        }
    }
}
