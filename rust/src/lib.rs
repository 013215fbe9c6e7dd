//! Safe calls of the proved library: a monitor file is checked, its wake-up table placed, and traces are run on two machines or made.
//!
//! Every call takes any bytes. What it returns is proved, for every input, of the call behind it; the conversion into the types here is
//! not. A call may need [`STACK`] bytes of stack: a thread that is spawned with less must not make one.
//!
//! ```
//! let file = b"monitor Box { var full = 0 in 0..1; keep true;
//!     method put { waituntil (full == 0) { full := 1; } }
//!     method get { waituntil (full == 1) { full := 0; } } }";
//! let table = damsonyet::place(file).unwrap();
//! assert_eq!(table.entries.len(), 2);
//! let both = damsonyet::run_both_from_start(file, b"000100\n010001\n").unwrap();
//! assert_eq!(both.table.unwrap().values, [1]);
//! ```
mod ffi;
mod load;
mod outline;
mod points;
mod queue;
mod refusal;
mod tries;

pub use load::{load, load_into, Load};
pub use outline::{outline, Method, Outline, Region, Variable};
pub use points::{points, Notices, Point, Points};
pub use refusal::{Reason, Refusal};
pub use tries::{fates, Fate};

/// The stack that a call may need, in bytes.
pub const STACK: usize = 655_360;

/// Which machine: the plain one wakes everybody whose guard holds, the table's those whom the table says.
#[derive(Clone, Copy, Debug, PartialEq, Eq)]
pub enum Machine {
    Plain,
    Table,
}

/// Where a thread is.
#[derive(Clone, Copy, Debug, PartialEq, Eq)]
pub enum Place {
    Idle,
    /// It waits at a region.
    Waiting(u8),
    /// It is due at the next region of its method.
    Due(u8),
}

impl Place {
    /// From the byte by which the programs and the library tell a place.
    fn from_byte(byte: u8) -> Place {
        match byte {
            0..=15 => Place::Waiting(byte),
            16..=31 => Place::Due(byte - 16),
            _ => Place::Idle,
        }
    }

    /// The byte by which the programs tell it: 255, r, or 16 + r.
    pub fn byte(self) -> u8 {
        match self {
            Place::Idle => 255,
            Place::Waiting(region) => region,
            Place::Due(region) => region + 16,
        }
    }
}

/// An entry of the table: a region wakes waiters on a guard.
#[derive(Clone, Copy, Debug, PartialEq, Eq)]
pub struct Entry {
    pub region: u8,
    pub guard: u8,
    /// Always, or only where the guard holds after the region's body.
    pub unconditional: bool,
    /// All waiters, or the first, which is the earliest to begin waiting.
    pub broadcast: bool,
}

/// The table of an accepted file.
#[derive(Clone, Debug, PartialEq, Eq)]
pub struct Table {
    pub entries: Vec<Entry>,
    /// The chosen tries as bits, the first `try` lowest: [`members`] lists them.
    pub chosen: u16,
    /// How many pairs of region and guard are touched: the region's body assigns, anywhere in its text and reached or not, a variable that
    /// the guard names. A region's own guard counts like any other. Every other pair has no entry by the text alone.
    ///
    /// ```
    /// let file = b"monitor Box { var full = 0 in 0..1; keep true;
    ///     method put { waituntil (full == 0) { full := 1; } }
    ///     method get { waituntil (full == 1) { full := 0; } } }";
    /// let table = damsonyet::place(file).unwrap();
    /// assert_eq!((table.pairs, table.entries.len()), (4, 2));
    /// ```
    pub pairs: u16,
    /// The lines that `placer` prints, nine bytes each.
    pub text: Vec<u8>,
}

/// The end of a run that a machine accepts.
#[derive(Clone, Debug, PartialEq, Eq)]
pub struct Record {
    pub values: Vec<i16>,
    pub places: [Place; 16],
    /// The threads that are notified, in order.
    pub notified: Vec<u8>,
    /// Of each thread that waits, how many of all who wait began before it, 0 of the others: [`Record::turn`] tells these apart,
    /// [`Record::queue`] and [`Record::line`] list who waits in order.
    ///
    /// ```
    /// let file = b"monitor Box { var full = 0 in 0..1; keep true;
    ///     method put { waituntil (full == 0) { full := 1; } }
    ///     method get { waituntil (full == 1) { full := 0; } } }";
    /// let record = damsonyet::run(file, b"050100\n000100\n", 0, damsonyet::Machine::Table).unwrap();
    /// assert_eq!((record.turn(5), record.turn(0), record.turn(1)), (Some(0), Some(1), None));
    /// assert_eq!(record.queue(), [5, 0]);
    /// ```
    pub turns: [u8; 16],
}

/// What both machines answer to one trace.
#[derive(Clone, Debug, PartialEq, Eq)]
pub struct Both {
    pub plain: Result<Record, Refusal>,
    pub table: Result<Record, Refusal>,
}

/// A state.
#[derive(Clone, Debug, PartialEq, Eq)]
pub struct State {
    /// Whether the kept condition, keep and the chosen tries, holds there.
    pub kept: bool,
    pub values: Vec<i16>,
    /// The guards that hold there, as bits.
    pub holds: u16,
    /// What each region's body does from there; none where it does not run.
    pub after: [Option<Outcome>; 16],
}

/// What a region's body does from a state.
#[derive(Clone, Copy, Debug, PartialEq, Eq)]
pub enum Outcome {
    /// It ends at the state with this number.
    Ends(u16),
    /// It assigns outside a range, or meets a remainder that has no value: its divisor is below 1.
    Faults,
}

fn value(held: u16) -> i16 {
    held as i16 - 128
}

/// The members of a set of sixteen bits, in order.
pub fn members(set: u16) -> Vec<u8> {
    (0..16).filter(|k| set >> k & 1 == 1).collect()
}

/// The verdict of a file.
pub fn check(file: &[u8]) -> Result<(), Refusal> {
    Refusal::of(unsafe { ffi::damsonyet_check(file.as_ptr(), file.len()) })
}

/// The table of a file.
pub fn place(file: &[u8]) -> Result<Table, Refusal> {
    let mut text = vec![0; ffi::OUTPUT_BYTES];
    let placing = unsafe { ffi::damsonyet_place(file.as_ptr(), file.len(), text.as_mut_ptr(), text.len()) };
    Refusal::of(placing.answer)?;
    text.truncate(placing.length);
    let digit = |byte: u8| char::from(byte).to_digit(16).map_or(0, |d| d as u8);
    let two = |line: &[u8], at: usize| digit(line[at]) * 16 + digit(line[at + 1]);
    let entries = text
        .chunks_exact(9)
        .map(|line| Entry { region: two(line, 0), guard: two(line, 2), unconditional: two(line, 4) == 1, broadcast: two(line, 6) == 1 })
        .collect();
    Ok(Table { entries, chosen: placing.chosen, pairs: placing.pairs, text })
}

fn record(running: &ffi::Running) -> Result<Record, Refusal> {
    Refusal::of(running.answer)?;
    Ok(Record {
        values: running.values[..running.vars].iter().map(|&held| value(held)).collect(),
        places: running.places.map(Place::from_byte),
        notified: members(running.notified),
        turns: running.turns,
    })
}

/// A run of a trace on one machine, from a state's number. The refusal is the file's or the run's: see [`Refusal::of_file`].
pub fn run(file: &[u8], trace: &[u8], start: usize, machine: Machine) -> Result<Record, Refusal> {
    record(&unsafe { ffi::damsonyet_run(file.as_ptr(), file.len(), trace.as_ptr(), trace.len(), start, machine == Machine::Table) })
}

fn both(both: ffi::Both) -> Result<Both, Refusal> {
    if both.plain.of_file {
        Refusal::of(both.plain.answer)?;
    }
    Ok(Both { plain: record(&both.plain), table: record(&both.table) })
}

/// Both machines on one trace, from a state's number; or the file's refusal.
pub fn run_both(file: &[u8], trace: &[u8], start: usize) -> Result<Both, Refusal> {
    both(unsafe { ffi::damsonyet_run_both(file.as_ptr(), file.len(), trace.as_ptr(), trace.len(), start) })
}

/// Both machines on one trace, from the start values; or the file's refusal.
pub fn run_both_from_start(file: &[u8], trace: &[u8]) -> Result<Both, Refusal> {
    both(unsafe { ffi::damsonyet_run_both_from_start(file.as_ptr(), file.len(), trace.as_ptr(), trace.len()) })
}

/// The number of the state at the start values of an accepted file; 0 of a refused one.
pub fn start_state(file: &[u8]) -> usize {
    unsafe { ffi::damsonyet_start_state(file.as_ptr(), file.len()) }
}

fn lines(print: impl FnOnce(*mut [u8; ffi::OUTPUT_BYTES]) -> usize) -> Vec<u8> {
    let mut out = Box::new([0; ffi::OUTPUT_BYTES]);
    let n = print(&mut *out);
    out[..n].to_vec()
}

/// What `placer` prints of a file.
pub fn placer_lines(file: &[u8]) -> Vec<u8> {
    lines(|out| unsafe { ffi::damsonyet_placer_lines(file.as_ptr(), file.len(), out) })
}

/// What `runner` prints of a file and a trace.
pub fn runner_lines(file: &[u8], trace: &[u8]) -> Vec<u8> {
    lines(|out| unsafe { ffi::damsonyet_runner_lines(file.as_ptr(), file.len(), trace.as_ptr(), trace.len(), out) })
}

/// The state with a number, none where there is no such state, of a file that is accepted or refused with 9; else its refusal.
///
/// ```
/// let file = b"monitor Box { var full = 0 in 0..1; keep true;
///     method put { waituntil (full == 0) { full := 1; } }
///     method get { waituntil (full == 1) { full := 0; } } }";
/// let state = damsonyet::state_at(file, 1).unwrap().unwrap();
/// assert_eq!(state.values, [1]);
/// assert_eq!(state.after[1], Some(damsonyet::Outcome::Ends(0)));
/// assert_eq!(damsonyet::number_of(file, &[1]), Ok(Some(1)));
/// assert_eq!(damsonyet::state_at(file, 2), Ok(None));
/// ```
pub fn state_at(file: &[u8], number: usize) -> Result<Option<State>, Refusal> {
    let state = unsafe { ffi::damsonyet_state_at(file.as_ptr(), file.len(), number) };
    if !matches!(state.answer.number, 0 | 9) {
        Refusal::of(state.answer)?;
    }
    Ok(state.known.then(|| State {
        kept: state.kept,
        values: state.values[..state.vars].iter().map(|&held| value(held)).collect(),
        holds: state.holds,
        after: state.after.map(|next| match next {
            ffi::NEVER => None,
            ffi::FAULT => Some(Outcome::Faults),
            number => Some(Outcome::Ends(number)),
        }),
    }))
}

/// The number of the state with these values, as many as the file has variables; none where they are no state's. Of a file that the
/// checks 1 to 7 and 15 pass; else its refusal.
pub fn number_of(file: &[u8], values: &[i16]) -> Result<Option<usize>, Refusal> {
    let vars = outline(file)?.0.variables.len();
    let mut held = [128; 6];
    for (slot, &given) in held.iter_mut().zip(values) {
        *slot = if (-128..=127).contains(&given) { (given + 128) as u16 } else { u16::MAX };
    }
    let numbered = unsafe { ffi::damsonyet_number_of(file.as_ptr(), file.len(), ffi::Values { held }) };
    Ok((values.len() == vars && numbered.known).then_some(numbered.number))
}
