//! Answers that refuse ("The refusals", the sentence below the table).

/// A refusal: its number and two places, 0 where unused. Acceptance (number 0)
/// is never held here; it is the `Ok` of a `Result`.
#[derive(Clone, Copy, Debug, PartialEq, Eq)]
pub struct Answer {
    pub number: u8,
    pub first: usize,
    pub second: usize,
}

impl Answer {
    /// A refusal whose second place is unused.
    pub fn at(number: u8, first: usize) -> Answer {
        Answer { number, first, second: 0 }
    }

    /// A refusal that uses both places (only 9 does).
    pub fn at_both(number: u8, first: usize, second: usize) -> Answer {
        Answer { number, first, second }
    }
}
