//! Tries and the choice among them (document 02, E1): of the conditions behind `try` the
//! largest set such that each holds at the start values, and from each state where keep, the
//! chosen ones and a region's guard hold, and whose body stays in range, the chosen ones hold
//! after it. A missing value in a body counts with the range faults (E5).
//!
//! Sets that will do are closed under union, so there is one largest. It is what is left when
//! all that some body breaks is dropped, pass by pass, from the tries that hold at the start:
//! a set that will do loses nothing so.
//!
//! The call that tells each try's fate is not in document 02. Its text:
//!
//! - It takes a file and gives its verdict, and the fate of each try, in file order, of every
//!   file that all checks up to 8 pass, so beside 0 and 9. A try is chosen; or it is false at
//!   the start values; or it is broken in a pass, counted from 1, at a region from a state.
//! - Before pass 1 the set is all tries that hold at the start values. A pass asks of each try
//!   of the set for a region and a state such that keep and every try of the set, as it stood
//!   when the pass began, hold there, and the region's guard too, the body meets no fault, and
//!   the try is false after it. All tries so broken are dropped together at the end of the
//!   pass. Told are the lowest region and then the lowest state that break it.
//! - Passes go on until one drops nothing. What is left is the chosen set.

use crate::answer::Answer;
use crate::check::{check, check_to_8};
use crate::monitor::Monitor;
use crate::ranges::state_number;

/// What becomes of a try.
#[derive(Clone, Copy, Debug, PartialEq, Eq)]
pub enum Fate {
    Chosen,
    FalseAtStart,
    Broken { pass: usize, region: usize, state: usize },
}

/// The verdict of a file, and the fate of each try where it is told.
pub fn tried(file: &[u8]) -> (Result<(), Answer>, Option<Vec<Fate>>) {
    (check(file).map(drop), check_to_8(file).ok().map(|monitor| monitor.fates))
}

/// A state where keep and a region's guard hold, and the state after its body, which meets no
/// fault. Whether keep holds there is not asked.
struct Move {
    region: usize,
    before: usize,
    after: usize,
}

/// The fate of each try of a monitor that all checks up to 8 pass.
pub fn fates(monitor: &Monitor) -> Vec<Fate> {
    if monitor.tries.is_empty() {
        return Vec::new();
    }
    let holding: Vec<Vec<bool>> =
        (0..monitor.count_of_states()).map(|state| tries_at(monitor, state)).collect();
    let moves = moves(monitor);
    let at_start = |number: usize| match holding[monitor.start_number()][number] {
        true => Fate::Chosen,
        false => Fate::FalseAtStart,
    };
    // Who is still in the set counts as chosen.
    let mut fates: Vec<Fate> = (0..monitor.tries.len()).map(at_start).collect();
    for pass in 1.. {
        let set: Vec<usize> =
            (0..fates.len()).filter(|number| fates[*number] == Fate::Chosen).collect();
        let allowed = |m: &&Move| set.iter().all(|number| holding[m.before][*number]);
        for number in &set {
            let breaking = moves.iter().filter(allowed).find(|m| !holding[m.after][*number]);
            if let Some(m) = breaking {
                fates[*number] = Fate::Broken { pass, region: m.region, state: m.before };
            }
        }
        if set.iter().all(|number| fates[*number] == Fate::Chosen) {
            break;
        }
    }
    fates
}

/// Of each try, whether it holds in a state.
fn tries_at(monitor: &Monitor, state: usize) -> Vec<bool> {
    let values = monitor.state_values(state);
    (0..monitor.tries.len()).map(|number| monitor.try_holds(number, &values)).collect()
}

/// All moves, by region and then by state.
fn moves(monitor: &Monitor) -> Vec<Move> {
    let mut moves = Vec::new();
    for (region, of) in monitor.regions.iter().enumerate() {
        for before in 0..monitor.count_of_states() {
            let values = monitor.state_values(before);
            if monitor.keep_holds(&values) && monitor.guard_holds(of.guard, &values) {
                if let Some(values) = monitor.after_body(region, &values) {
                    let after = state_number(&monitor.variables, &values);
                    moves.push(Move { region, before, after });
                }
            }
        }
    }
    moves
}
