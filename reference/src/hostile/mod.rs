//! Hostile input: damaged files and traces, far from what anyone would hand in,
//! and a comparison of programs on them by running.
//!
//! Input N of a seed is drawn from the seed and N alone. As with the cases, what is
//! expected are the lines that this program gives; the kinds of damage only see to
//! it that everything occurs.

pub mod files;
pub mod traces;
pub mod answers;
pub mod compare;
pub mod loads;

use std::collections::HashMap;

use crate::cases::draws::Draws;
use crate::cases::{make_case, Case, Size};
use crate::check::check;

/// Cases of the generator on which damage is done, each made when it is first
/// asked for.
pub struct Bases {
    seed: u64,
    made: HashMap<usize, Base>,
}

struct Base {
    case: Case,
    is_accepted: bool,
}

impl Bases {
    pub fn of(seed: u64) -> Bases {
        Bases { seed, made: HashMap::new() }
    }

    fn base(&mut self, number: usize) -> &Base {
        let seed = self.seed;
        self.made.entry(number).or_insert_with(|| {
            let size = if number % 3 == 0 { Size::SMALL } else { Size::FULL };
            let case = make_case(seed, number, size);
            let is_accepted = check(&case.monitor).is_ok();
            Base { case, is_accepted }
        })
    }

    /// Input number `number` of the seed.
    pub fn input(&mut self, number: usize) -> Case {
        // The draws of the base with the same number are others.
        let mut draws = Draws::of(!self.seed, number);
        let mut source = Source { bases: self, count: 40 + number / 20 };
        let draws = &mut draws;
        let base = source.accepted(draws);
        let monitor = files::hostile(draws, &mut source, base.monitor);
        let trace = traces::hostile(draws, &mut source, base.trace, &monitor);
        Case { monitor, trace }
    }
}

/// The first so many bases: later inputs draw from more of them.
pub struct Source<'a> {
    bases: &'a mut Bases,
    count: usize,
}

impl Source<'_> {
    /// Any base, its file accepted or not.
    pub fn any(&mut self, draws: &mut Draws) -> Case {
        let number = draws.below(self.count);
        self.bases.base(number).case.clone()
    }

    /// A base whose file is accepted.
    pub fn accepted(&mut self, draws: &mut Draws) -> Case {
        loop {
            let number = draws.below(self.count);
            let base = self.bases.base(number);
            if base.is_accepted {
                return base.case.clone();
            }
        }
    }
}

/// One of the kinds, each as often as its share says.
fn any_kind<T: Copy>(draws: &mut Draws, shares: &[(T, usize)]) -> T {
    let mut left = draws.below(shares.iter().map(|(_, share)| share).sum());
    for (kind, share) in shares {
        if left < *share {
            return *kind;
        }
        left -= share;
    }
    unreachable!("a draw is below the sum of the shares")
}

/// A count about a limit: one below it to two past it.
fn about(draws: &mut Draws, limit: usize) -> usize {
    limit - 1 + draws.pick(&[0, 1, 1, 2, 2, 3])
}
