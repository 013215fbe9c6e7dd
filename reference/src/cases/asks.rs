//! What a load is asked for, beside its file (document 02, E6).

use super::draws::Draws;
use super::Case;
use crate::frames::THREADS;
use crate::load::LINE;

/// A seed, a count of threads, a wanted count of frames, and how many bytes are lent.
#[derive(Clone, Copy, Debug, PartialEq, Eq)]
pub struct Ask {
    pub seed: u32,
    pub threads: usize,
    pub wanted: usize,
    pub room: usize,
}

/// More bytes are never lent here.
pub const MOST_ROOM: usize = 8192;

/// Seven times these counts is more than 64 or 32 bits hold, and what they hold of it is little.
const WRAPPED: [usize; 4] =
    [usize::MAX / 7 + 1, usize::MAX / 7 + 2, u32::MAX as usize / 7 + 1, u32::MAX as usize / 7 + 2];

impl Ask {
    /// Four numbers with blanks between.
    pub fn text(&self) -> String {
        format!("{} {} {} {}\n", self.seed, self.threads, self.wanted, self.room)
    }

    pub fn parsed(text: &str) -> Option<Ask> {
        let numbers: Option<Vec<usize>> =
            text.split_whitespace().map(|number| number.parse().ok()).collect();
        let [seed, threads, wanted, room] = numbers?[..] else { return None };
        Some(Ask { seed: u32::try_from(seed).ok()?, threads, wanted, room })
    }

    /// An ask beside a file and a trace: these alone decide it, so that a case has always the
    /// same.
    pub fn beside(case: &Case) -> Ask {
        let mixed = |sum: u64, byte: &u8| (sum ^ u64::from(*byte)).wrapping_mul(0x0100_0000_01B3);
        let sum = case.monitor.iter().chain(&case.trace).fold(0xCBF2_9CE4_8422_2325, mixed);
        Ask::any(&mut Draws::of(sum, case.trace.len()))
    }

    /// Any ask: most have a good count of threads, few frames, and room for them.
    pub fn any(draws: &mut Draws) -> Ask {
        let threads = match draws.below(20) {
            0 => draws.pick(&[0, THREADS + 1]),
            1 => draws.pick(&[0, 32, 255, 256, 257, 65_537, (1 << 32) + 1, usize::MAX]),
            2..=4 => draws.pick(&[1, THREADS]),
            5..=9 => draws.count(2, 4),
            _ => draws.count(1, THREADS),
        };
        let wanted = match draws.below(20) {
            0 => draws.pick(&WRAPPED),
            1 => draws.pick(&[usize::MAX, usize::MAX / 7, usize::MAX - 1, 1 << 61, 1 << 32]),
            2 => draws.below(2),
            3 => draws.count(100, 300),
            4..=8 => draws.count(2, 12),
            _ => draws.count(5, 60),
        };
        let room = match (wanted.checked_mul(LINE), draws.below(20)) {
            (Some(exact), 0) => exact.saturating_sub(1),
            (Some(exact), 1) => exact.saturating_sub(draws.count(1, 8)),
            (Some(_), 2) => draws.below(30),
            (Some(exact), 3..=10) => exact.saturating_add(draws.below(20)),
            (Some(exact), _) => exact,
            (None, _) => wanted.wrapping_mul(LINE).saturating_add(draws.below(9)),
        };
        let seed = match draws.below(4) {
            0 => draws.pick(&[0, 1, 2, 3, 4, u32::MAX, 1 << 31, 65_535, 65_536]),
            _ => draws.below(1 << 32) as u32,
        };
        Ask { seed, threads, wanted, room: room.min(MOST_ROOM) }
    }
}
