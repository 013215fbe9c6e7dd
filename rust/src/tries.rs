//! What becomes of the tries of a file.
use crate::{ffi, Refusal};

/// What becomes of a `try`.
#[derive(Clone, Copy, Debug, PartialEq, Eq)]
pub enum Fate {
    /// It is part of the kept condition.
    Chosen,
    FalseAtStart,
    /// It is dropped in a pass, counted from 1: the region's body makes it false from the state, where keep and all tries hold that no
    /// earlier pass has dropped. So the state is kept, and [`crate::state_at`] tells where the body leads.
    Broken {
        pass: u8,
        region: u8,
        state: u16,
    },
}

/// The fate of each `try`, in file order, of a file that is accepted or refused with 9; else its refusal.
///
/// ```
/// use damsonyet::Fate;
/// let file = b"monitor m { var x = 0 in 0..3; keep true;
///     try x < 2; try x > 0; try x != 3;
///     method a { waituntil (x == 3) { } }
///     method b { waituntil (true) { if (x == 2) { x := 3; } } } }";
/// assert_eq!(damsonyet::fates(file), Ok(vec![Fate::Chosen, Fate::FalseAtStart, Fate::Chosen]));
/// assert_eq!(damsonyet::place(file).unwrap().chosen, 0b101);
/// ```
pub fn fates(file: &[u8]) -> Result<Vec<Fate>, Refusal> {
    let fates = unsafe { ffi::damsonyet_fates_of(file.as_ptr(), file.len()) };
    if !fates.known {
        Refusal::of(fates.answer)?;
    }
    let fate = |i: usize| match (fates.chosen >> i & 1, fates.passes[i]) {
        (1, _) => Fate::Chosen,
        (_, 0) => Fate::FalseAtStart,
        (_, pass) => Fate::Broken { pass, region: fates.regions[i], state: fates.states[i] },
    };
    Ok((0..fates.tries).map(fate).collect())
}
