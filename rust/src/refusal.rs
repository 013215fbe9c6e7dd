//! The refusals, by their numbers.
use crate::ffi;
use std::fmt;

/// Why something is refused, and where: bytes and frames are counted from 0.
#[derive(Clone, Copy, Debug, PartialEq, Eq)]
pub enum Reason {
    /// 1: the file has over 8,192 bytes.
    TooLong,
    /// 2: no token begins at a byte, or a word or number that is too long.
    NoToken { byte: usize },
    /// 3: too many tokens, or brackets and braces too deep.
    Crowded { byte: usize },
    /// 4: no file of the grammar goes on so.
    Grammar { byte: usize },
    /// 5: too many variables, tries, methods or regions.
    PastLimit { byte: usize },
    /// 6: a name that is declared twice, or not declared.
    Name { byte: usize },
    /// 7: a range or a start value, or too many states.
    Range { byte: usize },
    /// 8: the condition of `keep` is false at the start values.
    NotKeptAtStart { byte: usize },
    /// 9: from a state a region's body leaves a range, meets a remainder without a value or breaks the kept condition, that is keep and the
    /// chosen tries.
    Breaks { region: usize, state: usize },
    /// 10: the buffer is too short. The calls here lend one that is not, save where there is no memory for a load of so many frames.
    Buffer,
    /// 11: the start state is none, or the kept condition is false there.
    Start,
    /// 12: a line is no frame.
    Frame { frame: usize },
    /// 13: the thread may not make this frame.
    NotAllowed { frame: usize },
    /// 14: the guard does not say what the frame says, or the waiter may not go on.
    NotNotified { frame: usize },
    /// 15: a remainder in keep, a try or a guard has no value in some state, as its divisor is below 1 there. Asked between 7 and 8.
    ///
    /// ```
    /// let file = b"monitor m { var n = 1 in 0..3; keep n > 0 && 6 mod n == 0; method a { waituntil (true) { } } }";
    /// let refusal = damsonyet::check(file).unwrap_err();
    /// let byte = file.windows(3).position(|three| three == b"mod").unwrap();
    /// assert_eq!(refusal.reason(), damsonyet::Reason::Remainder { byte });
    /// assert!(refusal.of_file());
    /// ```
    Remainder { byte: usize },
    /// 16: the count of threads of a load is not 1 to 16. Asked before anything else.
    Threads,
    /// A number that this version does not know.
    Unknown { first: usize, second: usize },
}

/// A refusal: its number and places as the library answers them.
#[derive(Clone, Copy, Debug, PartialEq, Eq)]
pub struct Refusal {
    pub number: u8,
    pub first: usize,
    pub second: usize,
}

impl Refusal {
    pub(crate) fn of(answer: ffi::Answer) -> Result<(), Refusal> {
        match answer {
            ffi::Answer { number: 0, .. } => Ok(()),
            ffi::Answer { number, first, second } => Err(Refusal { number, first, second }),
        }
    }

    /// Whether the file is refused, and not the buffer, the start or the trace (10 to 14) or the count of threads (16).
    pub fn of_file(&self) -> bool {
        !matches!(self.number, 10..=14 | 16)
    }

    /// The number's meaning, with its places.
    pub fn reason(&self) -> Reason {
        let Refusal { number, first, second } = *self;
        match number {
            1 => Reason::TooLong,
            2 => Reason::NoToken { byte: first },
            3 => Reason::Crowded { byte: first },
            4 => Reason::Grammar { byte: first },
            5 => Reason::PastLimit { byte: first },
            6 => Reason::Name { byte: first },
            7 => Reason::Range { byte: first },
            8 => Reason::NotKeptAtStart { byte: first },
            9 => Reason::Breaks { region: first, state: second },
            10 => Reason::Buffer,
            11 => Reason::Start,
            12 => Reason::Frame { frame: first },
            13 => Reason::NotAllowed { frame: first },
            14 => Reason::NotNotified { frame: first },
            15 => Reason::Remainder { byte: first },
            16 => Reason::Threads,
            _ => Reason::Unknown { first, second },
        }
    }
}

impl fmt::Display for Refusal {
    fn fmt(&self, f: &mut fmt::Formatter<'_>) -> fmt::Result {
        write!(f, "refused, {} ", self.number)?;
        match self.reason() {
            Reason::TooLong => write!(f, "(the file is too long)"),
            Reason::NoToken { byte } => write!(f, "(no token begins) at byte {byte}"),
            Reason::Crowded { byte } => write!(f, "(too many tokens, or too deep) at byte {byte}"),
            Reason::Grammar { byte } => write!(f, "(not the grammar) at byte {byte}"),
            Reason::PastLimit { byte } => write!(f, "(too many variables, tries, methods or regions) at byte {byte}"),
            Reason::Name { byte } => write!(f, "(a name declared twice, or not declared) at byte {byte}"),
            Reason::Range { byte } => write!(f, "(a range) at byte {byte}"),
            Reason::NotKeptAtStart { byte } => write!(f, "(the kept condition is false at the start) at byte {byte}"),
            Reason::Breaks { region, state } => {
                write!(f, "(a range, a remainder or the kept condition) by region {region} from state {state}")
            }
            Reason::Buffer => write!(f, "(the buffer is too short)"),
            Reason::Start => write!(f, "(no such start state, or it is not kept)"),
            Reason::Frame { frame } => write!(f, "(a line that is no frame) at frame {frame}"),
            Reason::NotAllowed { frame } => write!(f, "(the thread may not do this) at frame {frame}"),
            Reason::NotNotified { frame } => write!(f, "(the flag, or a waiter that may not go on) at frame {frame}"),
            Reason::Remainder { byte } => write!(f, "(a remainder that may have no value) at byte {byte}"),
            Reason::Threads => write!(f, "(the count of threads is not 1 to 16)"),
            Reason::Unknown { first, second } => write!(f, "at {first}, {second}"),
        }
    }
}

impl std::error::Error for Refusal {}
