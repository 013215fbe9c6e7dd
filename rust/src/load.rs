//! A repeatable load.
use crate::{ffi, Refusal};

/// A trace that was made.
#[derive(Clone, Debug, PartialEq, Eq)]
pub struct Load {
    /// How many frames it has: fewer than were wanted only where nobody can move any more but by a recheck.
    pub frames: usize,
    /// Their lines, as a trace has them.
    pub trace: Vec<u8>,
}

/// Makes up to so many frames that the plain machine allows, rechecks left out, of the threads 0 to `threads` - 1, from the start values. The
/// same file, seed and threads give the same frames everywhere, a longer load begins with the shorter one, and both machines accept the trace.
///
/// For each frame the allowed ones are ordered by thread and then region; the seed is replaced by itself times 1664525 plus 1013904223, kept
/// to 32 bits, and the frame at its upper sixteen bits modulo their count is taken.
///
/// Refused with 16 where `threads` is not 1 to 16, before anything else; with the file's refusals; and with 10 where there is no memory for so
/// many frames.
///
/// ```
/// let file = b"monitor Box { var full = 0 in 0..1; keep true;
///     method put { waituntil (full == 0) { full := 1; } }
///     method get { waituntil (full == 1) { full := 0; } } }";
/// // The upper halves of the first two draws are 15496 and 24200, both even: the first of two frames is taken, put, and again. The second
/// // put waits, and there is nobody else.
/// let load = damsonyet::load(file, 1, 1, 3).unwrap();
/// assert_eq!((load.frames, &load.trace[..]), (2, &b"000001\n000000\n"[..]));
/// assert!(damsonyet::run_both_from_start(file, &load.trace).unwrap().table.is_ok());
/// assert_eq!(damsonyet::load(file, 1, 17, 3).unwrap_err().reason(), damsonyet::Reason::Threads);
/// ```
pub fn load(file: &[u8], seed: u32, threads: usize, wanted: usize) -> Result<Load, Refusal> {
    // Where so long a buffer is not to be had, an empty one is lent: the call then says so itself, behind what it asks before.
    let mut trace = Vec::new();
    let room = wanted.checked_mul(ffi::FRAME_BYTES).filter(|&room| trace.try_reserve_exact(room).is_ok()).unwrap_or(0);
    let made = unsafe { ffi::damsonyet_load(file.as_ptr(), file.len(), seed, threads, wanted, trace.as_mut_ptr(), room) };
    Refusal::of(made.answer)?;
    // The call has written this much of the buffer and read none of it.
    unsafe { trace.set_len(ffi::FRAME_BYTES * made.count) };
    trace.shrink_to_fit();
    Ok(Load { frames: made.count, trace })
}

/// The same into a buffer, from its first byte on; told is how many frames there are. The bytes behind their lines are kept. Refused with 10
/// where the buffer has fewer than seven bytes for each wanted frame, however many are made; refused, not a byte changes.
///
/// ```
/// let file = b"monitor Tick { var n = 0 in 0..1; keep true; method tick { waituntil (true) { n := n + 1 mod 1; } } }";
/// let mut buffer = *b"--------------------";
/// assert_eq!(damsonyet::load_into(file, 7, 1, 2, &mut buffer), Ok(2));
/// assert_eq!(&buffer, b"000001\n000001\n------");
/// assert_eq!(damsonyet::load_into(file, 7, 1, 3, &mut buffer).unwrap_err().reason(), damsonyet::Reason::Buffer);
/// ```
pub fn load_into(file: &[u8], seed: u32, threads: usize, wanted: usize, buffer: &mut [u8]) -> Result<usize, Refusal> {
    let made = unsafe { ffi::damsonyet_load(file.as_ptr(), file.len(), seed, threads, wanted, buffer.as_mut_ptr(), buffer.len()) };
    Refusal::of(made.answer).map(|()| made.count)
}
