//! Demand 3 as a property: both machines on one list of frames, from every kept
//! start state of many monitors ("Both machines on one list"), the turns compared
//! with the rest (document 02, E4).

use reference::cases::draws::Draws;
use reference::cases::monitors::any_accepted;
use reference::cases::traces::{any_frame, walk_from};
use reference::cases::Size;
use reference::frames::{trace_of, Frame, THREADS};
use reference::machines::Machines;
use reference::{Machine, Place, Record};

/// How often each end was met, so that the property is known not to be empty.
#[derive(Default, Debug)]
struct Ends {
    accepted: usize,
    refused_alike: usize,
    parted: usize,
    /// Points at which the first waiter on a guard that holds has not the lowest number.
    by_arrival: usize,
}

/// A recheck, told from the frames alone.
fn is_recheck(frames: &[Frame], index: usize) -> bool {
    let frame = frames[index];
    let last = frames[..index].iter().rev().find(|earlier| earlier.thread == frame.thread);
    !frame.flag && last.is_some_and(|last| !last.flag)
}

/// The waiter on a guard that is next in line: the one with the least turn.
fn first_waiter(machines: &Machines, record: &Record, guard: usize) -> Option<usize> {
    let waits = |place| match place {
        Place::Waiting(region) => machines.monitor.regions[region].guard == guard,
        _ => false,
    };
    let waiters = (0..THREADS).filter(|thread| waits(record.places[*thread]));
    waiters.min_by_key(|thread| record.turns[*thread])
}

/// Under the table, the first waiter on any guard that holds is notified.
fn first_waiters_are_notified(machines: &Machines, record: &Record) -> bool {
    (0..machines.monitor.guards.len())
        .filter(|guard| machines.monitor.guard_holds(*guard, &record.values))
        .filter_map(|guard| first_waiter(machines, record, guard))
        .all(|first| record.notified[first])
}

/// Whether the first waiter on some guard that holds has not the lowest number there.
fn by_arrival(machines: &Machines, record: &Record) -> bool {
    (0..machines.monitor.guards.len())
        .filter(|guard| machines.monitor.guard_holds(*guard, &record.values))
        .any(|guard| {
            let first = first_waiter(machines, record, guard);
            record.waiters(&machines.monitor, guard).iter().any(|thread| Some(*thread) < first)
        })
}

fn compare(machines: &Machines, start: &Record, frames: &[Frame], ends: &mut Ends) {
    let (mut plain, mut of_table) = (start.clone(), start.clone());
    for (index, frame) in frames.iter().enumerate() {
        let next_plain = machines.step(&plain, *frame, Machine::Plain);
        let next_table = machines.step(&of_table, *frame, Machine::Table);
        match (next_plain, next_table) {
            (Ok(next_plain), Ok(next_table)) => {
                assert_eq!(next_plain.values, next_table.values);
                assert_eq!(next_plain.places, next_table.places);
                assert_eq!(next_plain.turns, next_table.turns);
                ends.by_arrival += usize::from(by_arrival(machines, &next_table));
                assert!(first_waiters_are_notified(machines, &next_table));
                for thread in 0..THREADS {
                    assert!(!next_table.notified[thread] || next_table.is_waiting(thread));
                }
                (plain, of_table) = (next_plain, next_table);
            }
            (Err(one), Err(other)) => {
                assert_eq!(one, other);
                ends.refused_alike += 1;
                return;
            }
            (plain, of_table) => {
                assert!(plain.is_ok() && of_table == Err(14) && is_recheck(frames, index));
                ends.parted += 1;
                return;
            }
        }
    }
    ends.accepted += 1;
}

fn property(seed: u64, monitors: usize, size: Size, most_states: usize) -> Ends {
    let mut ends = Ends::default();
    for case in 0..monitors {
        let mut draws = Draws::of(seed, case);
        let machines = any_accepted(&mut draws, size).machines;
        for (number, _) in machines.monitor.kept_states().into_iter().take(most_states) {
            let start = machines.start(number).unwrap();
            for machine in [Machine::Plain, Machine::Table] {
                let count = draws.count(0, 40);
                let mut frames =
                    walk_from(&mut draws, &machines, machine, count, start.clone()).frames;
                compare(&machines, &start, &frames, &mut ends);
                let place = draws.count(0, frames.len());
                frames.insert(place, any_frame(&mut draws, &machines));
                compare(&machines, &start, &frames, &mut ends);
            }
            let any: Vec<Frame> = (0..6).map(|_| any_frame(&mut draws, &machines)).collect();
            compare(&machines, &start, &any, &mut ends);
        }
    }
    ends
}

#[test]
fn small_monitors_from_every_kept_state() {
    let ends = property(3, 600, Size::SMALL, usize::MAX);
    assert!(ends.accepted > 1000 && ends.refused_alike > 1000 && ends.parted > 100, "{ends:?}");
    assert!(ends.by_arrival > 1000, "{ends:?}");
}

#[test]
fn large_monitors() {
    let ends = property(4, 300, Size::FULL, 12);
    assert!(ends.accepted > 200 && ends.refused_alike > 200 && ends.parted > 20, "{ends:?}");
    assert!(ends.by_arrival > 1000, "{ends:?}");
}

/// A point is a prefix taken as a trace from the same state: a whole run is its
/// steps one after the other, and says where it was refused.
#[test]
fn a_run_is_its_steps() {
    for case in 0..100 {
        let mut draws = Draws::of(5, case);
        let machines = any_accepted(&mut draws, Size::SMALL).machines;
        let start = machines.monitor.start_number();
        let mut record = machines.start(start).unwrap();
        let walked = walk_from(&mut draws, &machines, Machine::Plain, 12, record.clone());
        let mut frames = walked.frames;
        frames.push(any_frame(&mut draws, &machines));
        for length in 1..=frames.len() {
            let whole = machines.run(&trace_of(&frames[..length]), start, Machine::Plain);
            match machines.step(&record, frames[length - 1], Machine::Plain) {
                Ok(next) => {
                    assert_eq!(whole.as_ref(), Ok(&next));
                    record = next;
                }
                Err(number) => {
                    let answer = whole.unwrap_err();
                    assert_eq!((answer.number, answer.first), (number, length - 1));
                    break;
                }
            }
        }
    }
}
