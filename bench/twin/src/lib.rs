//! Panel monitors in plain Rust, by the same method as the proved programs: the
//! truth of every guard and the state after every body are computed once for
//! every state, and the table and both machines look them up.

pub mod check;
pub mod command;
pub mod grammar;
pub mod lines;
pub mod load;
pub mod machines;
pub mod monitor;
pub mod table;
pub mod tokens;

/// A refusal: its number and two places, 0 where unused.
#[derive(Clone, Copy, Debug, PartialEq, Eq)]
pub struct Refusal {
    pub number: u8,
    pub first: usize,
    pub second: usize,
}

impl Refusal {
    pub fn at(number: u8, first: usize) -> Refusal {
        Refusal { number, first, second: 0 }
    }
}
