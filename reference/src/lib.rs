//! Panel monitors by brute force: the second program.
//!
//! Everything here is rendered from the documents alone (`points`, `outline` and the fates of
//! tries from the texts at their heads), as plainly as it goes, so that its results can be laid
//! beside those of the first program. The modules stand in the order of document 01.

pub mod answer;

// The monitor file and the refusals 1 to 7.
pub mod tokens;
pub mod grammar;
pub mod limits;
pub mod names;
pub mod ranges;

// What the file means, which tries are chosen, and the refusals 15, 8 and 9.
pub mod evaluation;
pub mod remainders;
pub mod monitor;
pub mod tries;
pub mod check;

// The table, the pairs that are touched, and refusal 10.
pub mod pairs;
pub mod table;

// Traces, the two machines, and the refusals 11 to 14.
pub mod frames;
pub mod machines;

// Every point of a run.
pub mod points;

// Traces made from a seed, and refusal 16.
pub mod load;

// What a file has and where, and its states.
pub mod outline;

// What the programs print.
pub mod lines;

// Cases for comparing programs, and a count of what they hold.
pub mod cases;
pub mod tally;

// Hostile input, and the programs compared on it.
pub mod hostile;

pub use answer::Answer;
pub use check::check;
pub use load::load;
pub use machines::{run, Machine, Place, Record};
pub use monitor::Monitor;
pub use points::{points, Points};
pub use table::{place, Placed};
pub use tries::{tried, Fate};
