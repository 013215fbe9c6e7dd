//! brute placer < FILE    what `placer` prints
//! brute runner DIR       what `runner` prints in DIR
//!
//! By brute force: nothing is kept for a state. For each region and each guard that it
//! touches all states are gone through, and conditions and bodies evaluated anew in
//! each. The reading of a file and its trees are the twin's.

use std::process::ExitCode;

use twin::check::parse_checked;
use twin::lines::{put_record, put_refusal, put_table, MOST_TRACE_BYTES};
use twin::machines::{frames, Frame, Machine, Place, THREADS};
use twin::monitor::{Condition, Monitor, Values};
use twin::table::Entry;
use twin::Refusal;

fn main() -> ExitCode {
    twin::command::main(placer, runner)
}

fn placer(file: &[u8]) -> Vec<u8> {
    let mut out = Vec::new();
    match check(file) {
        Ok(monitor) => put_table(&mut out, &entries(&monitor)),
        Err(refusal) => put_refusal(&mut out, refusal),
    }
    out
}

fn runner(file: &[u8], trace: &[u8]) -> Vec<u8> {
    let mut out = Vec::new();
    let monitor = match check(file) {
        Ok(monitor) => monitor,
        Err(refusal) => {
            put_refusal(&mut out, refusal);
            return out;
        }
    };
    let entries = entries(&monitor);
    for machine in [Machine::Plain, Machine::Table] {
        match run(&monitor, &entries, trace, machine) {
            Ok(run) => put_record(&mut out, &run.values[..monitor.variables.len()], &run.places),
            Err(refusal) => put_refusal(&mut out, refusal),
        }
    }
    out
}

/// A file's refusals; the chosen tries are joined to keep.
fn check(file: &[u8]) -> Result<Monitor, Refusal> {
    let mut monitor = parse_checked(file)?;
    let chosen = chosen(&monitor);
    let tries = std::mem::take(&mut monitor.tries).into_iter().zip(chosen);
    let mut kept = vec![std::mem::replace(&mut monitor.keep, Condition::Constant(true))];
    kept.extend(tries.filter(|(_, is_chosen)| *is_chosen).map(|(condition, _)| condition));
    monitor.keep = Condition::All(kept);
    for (number, region) in monitor.regions.iter().enumerate() {
        for state in 0..monitor.count_of_states() {
            let values = monitor.values_of(state);
            if monitor.keep.holds(&values) && monitor.guards[region.guard].holds(&values) {
                let mut after = values;
                let stays = monitor.run(&region.body, &mut after) && monitor.keep.holds(&after);
                if !stays {
                    return Err(Refusal { number: 9, first: number, second: state });
                }
            }
        }
    }
    Ok(monitor)
}

/// Of each try whether it is chosen: pass by pass all are dropped that some body breaks.
fn chosen(monitor: &Monitor) -> Vec<bool> {
    if monitor.tries.is_empty() {
        return Vec::new();
    }
    let start = monitor.start_values();
    let mut set: Vec<bool> =
        monitor.tries.iter().map(|condition| condition.holds(&start)).collect();
    loop {
        let mut left = set.clone();
        for region in &monitor.regions {
            for state in 0..monitor.count_of_states() {
                let before = monitor.values_of(state);
                let counts = monitor.keep.holds(&before)
                    && monitor.tries.iter().zip(&set).all(|(c, is_in)| !is_in || c.holds(&before))
                    && monitor.guards[region.guard].holds(&before);
                let mut after = before;
                if counts && monitor.run(&region.body, &mut after) {
                    for (left, condition) in left.iter_mut().zip(&monitor.tries) {
                        *left &= condition.holds(&after);
                    }
                }
            }
        }
        if left == set {
            return set;
        }
        set = left;
    }
}

/// The entries, for each region and then each guard that it touches.
fn entries(monitor: &Monitor) -> Vec<Entry> {
    let touched = monitor.touched();
    let mut entries = Vec::new();
    for region in 0..monitor.regions.len() {
        for guard in 0..monitor.guards.len() {
            if touched[region] >> guard & 1 == 0 {
                continue;
            }
            let moves = Moves::of(monitor, region, guard);
            if moves.made_true {
                let unconditional = !moves.left_false;
                let broadcast = is_broadcast(monitor, &touched, guard);
                entries.push(Entry { region, guard, unconditional, broadcast });
            }
        }
    }
    entries
}

/// Of a guard that has an entry. It holds in some kept state, and a body that does not
/// touch it leaves it true there.
fn is_broadcast(monitor: &Monitor, touched: &[u16], guard: usize) -> bool {
    let regions = monitor.regions.iter().enumerate();
    let mut having = regions.filter(|(_, region)| region.guard == guard);
    having.any(|(number, _)| {
        touched[number] >> guard & 1 == 0 || Moves::of(monitor, number, guard).left_true
    })
}

/// What a region's body does to a guard, from some state each.
#[derive(Default)]
struct Moves {
    made_true: bool,
    left_false: bool,
    left_true: bool,
}

impl Moves {
    fn of(monitor: &Monitor, region: usize, guard: usize) -> Moves {
        let region = &monitor.regions[region];
        let guard = &monitor.guards[guard];
        let mut moves = Moves::default();
        for state in 0..monitor.count_of_states() {
            let before = monitor.values_of(state);
            if monitor.keep.holds(&before) && monitor.guards[region.guard].holds(&before) {
                let mut after = before;
                monitor.run(&region.body, &mut after);
                match (guard.holds(&before), guard.holds(&after)) {
                    (false, true) => moves.made_true = true,
                    (false, false) => moves.left_false = true,
                    (true, true) => moves.left_true = true,
                    (true, false) => {}
                }
            }
        }
        moves
    }
}

/// The record of a run.
struct Run {
    values: Values,
    places: [Place; THREADS],
    notified: [bool; THREADS],
    /// The waiting threads, the earliest to begin first.
    queue: Vec<usize>,
}

fn run(
    monitor: &Monitor,
    entries: &[Entry],
    trace: &[u8],
    machine: Machine,
) -> Result<Run, Refusal> {
    let mut run = Run {
        values: monitor.start_values(),
        places: [Place::Idle; THREADS],
        notified: [false; THREADS],
        queue: Vec::new(),
    };
    let trace = &trace[..trace.len().min(MOST_TRACE_BYTES)];
    for (index, frame) in frames(trace)?.into_iter().enumerate() {
        run.step(monitor, entries, frame, machine).map_err(|number| Refusal::at(number, index))?;
    }
    Ok(run)
}

impl Run {
    /// One frame, or 13 or 14.
    fn step(
        &mut self,
        monitor: &Monitor,
        entries: &[Entry],
        frame: Frame,
        machine: Machine,
    ) -> Result<(), u8> {
        let thread = usize::from(frame.thread);
        let Some(region) = monitor.regions.get(usize::from(frame.region)) else {
            return Err(13);
        };
        let due = self.places.iter().position(|place| matches!(place, Place::Due(_)));
        let may_be_at = match self.places[thread] {
            Place::Idle => region.is_first,
            Place::Waiting(at) | Place::Due(at) => at == frame.region,
        };
        if !may_be_at || due.is_some_and(|due| due != thread) {
            return Err(13);
        }
        if frame.flag != monitor.guards[region.guard].holds(&self.values) {
            return Err(14);
        }
        let waits = matches!(self.places[thread], Place::Waiting(_));
        if waits {
            let mut notified = self.waiters(monitor, region.guard);
            notified.retain(|waiter| self.notified[*waiter]);
            let next = notified.first() == Some(&thread);
            if !self.notified[thread] || (frame.flag && !next) {
                return Err(14);
            }
        }
        if !frame.flag {
            if !waits {
                self.queue.push(thread);
            }
            self.notified[thread] = false;
            self.places[thread] = Place::Waiting(frame.region);
            return Ok(());
        }
        monitor.run(&region.body, &mut self.values);
        self.queue.retain(|waiter| *waiter != thread);
        self.notified[thread] = false;
        self.places[thread] =
            if region.is_last { Place::Idle } else { Place::Due(frame.region + 1) };
        match machine {
            Machine::Plain => self.notify_all(monitor),
            Machine::Table => self.notify_by_table(monitor, entries, frame.region),
        }
        Ok(())
    }

    /// The threads that wait on a guard, the earliest first.
    fn waiters(&self, monitor: &Monitor, guard: usize) -> Vec<usize> {
        let waits = |place| match place {
            Place::Waiting(region) => monitor.regions[usize::from(region)].guard == guard,
            _ => false,
        };
        self.queue.iter().copied().filter(|thread| waits(self.places[*thread])).collect()
    }

    fn notify_all(&mut self, monitor: &Monitor) {
        for (guard, condition) in monitor.guards.iter().enumerate() {
            if condition.holds(&self.values) {
                for waiter in self.waiters(monitor, guard) {
                    self.notified[waiter] = true;
                }
            }
        }
    }

    fn notify_by_table(&mut self, monitor: &Monitor, entries: &[Entry], region: u8) {
        for entry in entries.iter().filter(|entry| entry.region == usize::from(region)) {
            if entry.unconditional || monitor.guards[entry.guard].holds(&self.values) {
                let picked = if entry.broadcast { THREADS } else { 1 };
                for waiter in self.waiters(monitor, entry.guard).into_iter().take(picked) {
                    self.notified[waiter] = true;
                }
            }
        }
    }
}
