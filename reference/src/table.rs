//! The wake-up table ("The table"), its lines, and refusal 10.

use crate::answer::Answer;
use crate::check::check;
use crate::monitor::Monitor;
use crate::pairs;

#[derive(Clone, Copy, Debug, PartialEq, Eq)]
pub struct Entry {
    pub region: usize,
    pub guard: usize,
    pub unconditional: bool,
    pub broadcast: bool,
}

/// A kept state in which a region's guard holds, and the state after its body.
struct Move {
    before: Vec<i64>,
    after: Vec<i64>,
}

/// The entries, for each region and then each guard. The states of every pair are gone
/// through, and where an entry stands the text must allow it.
pub fn entries(monitor: &Monitor) -> Vec<Entry> {
    let kept = monitor.kept_states();
    let regions = 0..monitor.regions.len();
    let moves: Vec<Vec<Move>> = regions.clone().map(|r| moves(monitor, &kept, r)).collect();
    let mut entries = Vec::new();
    for region in regions {
        for guard in 0..monitor.guards.len() {
            let made_true: Vec<bool> = moves[region]
                .iter()
                .filter(|m| !monitor.guard_holds(guard, &m.before))
                .map(|m| monitor.guard_holds(guard, &m.after))
                .collect();
            // It stands when the body makes the guard true from some such state,
            if made_true.contains(&true) {
                assert!(pairs::is_touched(monitor, region, guard), "an entry without a touch");
                // and is unconditional when it does so from every such state.
                let unconditional = !made_true.contains(&false);
                let broadcast = !is_signal(monitor, &moves, guard);
                entries.push(Entry { region, guard, unconditional, broadcast });
            }
        }
    }
    entries
}

fn moves(monitor: &Monitor, kept: &[(usize, Vec<i64>)], region: usize) -> Vec<Move> {
    let guard = monitor.regions[region].guard;
    kept.iter()
        .filter(|(_, values)| monitor.guard_holds(guard, values))
        .map(|(_, before)| Move { before: before.clone(), after: after(monitor, region, before) })
        .collect()
}

/// The values after a body that starts in a kept state with its guard true. No
/// accepted file has a fault from there (refusal 9).
pub fn after(monitor: &Monitor, region: usize, values: &[i64]) -> Vec<i64> {
    monitor.after_body(region, values).expect("a checked body has no fault")
}

/// A guard is signalled when every region having it (not only one) leaves it
/// false from every kept state where it was true.
fn is_signal(monitor: &Monitor, moves: &[Vec<Move>], guard: usize) -> bool {
    monitor
        .regions
        .iter()
        .zip(moves)
        .filter(|(region, _)| region.guard == guard)
        .all(|(_, moves)| moves.iter().all(|m| !monitor.guard_holds(guard, &m.after)))
}

/// The lines of the table.
pub fn table_lines(entries: &[Entry]) -> Vec<u8> {
    let mut lines = String::new();
    for entry in entries {
        let unconditional = u8::from(entry.unconditional);
        let broadcast = u8::from(entry.broadcast);
        lines += &format!(
            "{:02X}{:02X}{:02X}{:02X}\n",
            entry.region, entry.guard, unconditional, broadcast
        );
    }
    lines.into_bytes()
}

/// What placing gives.
#[derive(Clone, Debug, PartialEq, Eq)]
pub struct Placed {
    /// The lines of the table.
    pub table: Vec<u8>,
    /// The chosen tries, the first try the lowest bit.
    pub chosen: u16,
    /// How many pairs of region and guard are touched.
    pub pairs: usize,
}

/// The table of a file, for a buffer of the given length, its chosen tries and how many
/// pairs are touched. After the refusals of the file comes 10, when the buffer is shorter
/// than the table.
pub fn place(file: &[u8], buffer_length: usize) -> Result<Placed, Answer> {
    let monitor = check(file)?;
    let table = table_lines(&entries(&monitor));
    if buffer_length < table.len() {
        return Err(Answer::at(10, 0));
    }
    Ok(Placed { table, chosen: monitor.chosen(), pairs: pairs::count(&monitor) })
}
