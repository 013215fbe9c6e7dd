//! A repeatable load: the frames that the plain machine allows, rechecks left out, are counted,
//! and one of them is drawn. The table is not needed for it.

use crate::check::{check, Checked};
use crate::machines::{members, Frame, THREADS};
use crate::Refusal;

const LINE: usize = 7;
const MOST_GUARDS: usize = 16;

/// Makes frames for so many threads from the start values, up to the wanted count, and writes their
/// lines into the buffer. How many there are, or a refusal, which leaves the buffer as it was.
pub fn load(
    file: &[u8],
    seed: u32,
    threads: usize,
    wanted: usize,
    buffer: &mut [u8],
) -> Result<usize, Refusal> {
    if !(1..=THREADS).contains(&threads) {
        return Err(Refusal::at(16, 0));
    }
    let checked = check(file)?;
    if wanted > buffer.len() / LINE {
        return Err(Refusal::at(10, 0));
    }
    let mut load = Load::new(&checked, seed, threads);
    for (count, line) in buffer.chunks_exact_mut(LINE).take(wanted).enumerate() {
        match load.pick() {
            Some(frame) => {
                put(line, frame);
                load.take(frame);
            }
            None => return Ok(count),
        }
    }
    Ok(wanted)
}

fn put(line: &mut [u8], frame: Frame) {
    const DIGITS: &[u8; 16] = b"0123456789ABCDEF";
    let digit = |value: u8| DIGITS[usize::from(value & 15)];
    let Frame { thread, region, flag } = frame;
    let flag = b'0' + u8::from(flag);
    line.copy_from_slice(&[b'0', digit(thread), b'0', digit(region), b'0', flag, b'\n']);
}

/// A run of the plain machine, its threads in sets of one bit each.
struct Load<'a> {
    checked: &'a Checked,
    /// The guard of each region, and the first region of each method.
    guards: Vec<u8>,
    firsts: Vec<u8>,
    number: u32,
    state: u16,
    idle: u16,
    /// The thread that is due, and its region.
    due: Option<(u8, u8)>,
    /// The threads that wait on each guard, and the guards on which one waits.
    waiting: [u16; MOST_GUARDS],
    crowded: u16,
    notified: u16,
    /// Of a waiter its region, and how many had begun to wait before it.
    regions: [u8; THREADS],
    turns: [u64; THREADS],
    arrivals: u64,
}

impl<'a> Load<'a> {
    fn new(checked: &'a Checked, seed: u32, threads: usize) -> Load<'a> {
        let monitor = &checked.monitor;
        let regions = monitor.regions.iter();
        let firsts = (0..).zip(regions.clone()).filter(|(_, region)| region.is_first);
        Load {
            checked,
            guards: regions.map(|region| region.guard as u8).collect(),
            firsts: firsts.map(|(number, _)| number).collect(),
            number: seed,
            state: monitor.number_of(&monitor.start_values()) as u16,
            idle: u16::MAX >> (THREADS - threads),
            due: None,
            waiting: [0; MOST_GUARDS],
            crowded: 0,
            notified: 0,
            regions: [0; THREADS],
            turns: [0; THREADS],
            arrivals: 0,
        }
    }

    fn guard(&self, region: u8) -> usize {
        usize::from(self.guards[usize::from(region)])
    }

    fn truths(&self) -> u16 {
        self.checked.truths[usize::from(self.state)]
    }

    /// The number of a frame among so many.
    fn draw(&mut self, count: usize) -> usize {
        self.number = self.number.wrapping_mul(1_664_525).wrapping_add(1_013_904_223);
        (self.number >> 16) as usize % count
    }

    /// The next frame, if one is allowed.
    fn pick(&mut self) -> Option<Frame> {
        let truths = self.truths();
        if let Some((thread, region)) = self.due {
            self.draw(1);
            return Some(Frame { thread, region, flag: truths >> self.guard(region) & 1 == 1 });
        }
        let mut resuming: u16 = 0;
        for guard in members(truths & self.crowded) {
            let told = members(self.waiting[guard] & self.notified);
            resuming |= told.min_by_key(|thread| self.turns[*thread]).map_or(0, |first| 1 << first);
        }
        let methods = self.firsts.len();
        let count = self.idle.count_ones() as usize * methods + resuming.count_ones() as usize;
        if count == 0 {
            return None;
        }
        let mut left = self.draw(count);
        for thread in members(self.idle | resuming) {
            let is_idle = self.idle >> thread & 1 == 1;
            let own = if is_idle { methods } else { 1 };
            if left < own {
                let region = if is_idle { self.firsts[left] } else { self.regions[thread] };
                let flag = truths >> self.guard(region) & 1 == 1;
                return Some(Frame { thread: thread as u8, region, flag });
            }
            left -= own;
        }
        unreachable!("a draw is below the count")
    }

    /// Takes an allowed frame.
    fn take(&mut self, frame: Frame) {
        let Frame { thread, region, flag } = frame;
        let (own, guard) = (1 << thread, self.guard(region));
        self.idle &= !own;
        self.due = None;
        if !flag {
            let thread = usize::from(thread);
            self.waiting[guard] |= own;
            self.crowded |= 1 << guard;
            self.regions[thread] = region;
            self.turns[thread] = self.arrivals;
            self.arrivals += 1;
            return;
        }
        self.waiting[guard] &= !own;
        self.crowded &= !(u16::from(self.waiting[guard] == 0) << guard);
        self.notified &= !own;
        self.state = self.checked.after[usize::from(region)][usize::from(self.state)];
        if self.checked.monitor.regions[usize::from(region)].is_last {
            self.idle |= own;
        } else {
            self.due = Some((thread, region + 1));
        }
        for guard in members(self.truths() & self.crowded) {
            self.notified |= self.waiting[guard];
        }
    }
}

#[cfg(test)]
mod tests {
    use super::load;

    const BOX: &str = "monitor box { var full = 0 in 0..1; keep true;
        method put { waituntil (full == 0) { full := 1; } }
        method get { waituntil (full == 1) { full := 0; } } }";

    /// The frames that are made, or the refusal's number; the bytes behind are kept.
    fn made(file: &str, seed: u32, threads: usize, wanted: usize) -> Result<String, u8> {
        let mut buffer = [b'-'; 70];
        let count =
            load(file.as_bytes(), seed, threads, wanted, &mut buffer).map_err(|r| r.number)?;
        assert!(buffer[7 * count..].iter().all(|byte| *byte == b'-'));
        let lines = String::from_utf8(buffer[..7 * count].to_vec()).expect("digits");
        Ok(lines.trim_end().replace('\n', " "))
    }

    #[test]
    fn draws_and_their_order() {
        let two = "000001 000101 000100 010001 000101 010001 000000 010101 000001";
        assert_eq!(made(BOX, 4, 2, 9), Ok(two.into()));
        let sixteen = "070001 080000 040000 020101 0F0001 060000";
        assert_eq!(made(BOX, 0, 16, 6), Ok(sixteen.into()));
        // Thread 0 might only recheck at the end.
        assert_eq!(made(BOX, 2, 2, 10), Ok("000100 010001 010101 010100".into()));
        // The earlier waiter has the higher number.
        let queue = "020100 000100 010001 020101 020001 000101";
        assert_eq!(made(BOX, 36, 3, 6), Ok(queue.into()));
    }

    #[test]
    fn a_due_thread_goes_on() {
        let file = "monitor m { var x = 0 in 0..1; keep true;
            method a { waituntil (true) { } waituntil (x == 1) { x := 0; } }
            method b { waituntil (x == 0) { x := 1; } } }";
        let frames = "010201 000200 010001 010101 000201 000001 000101 000001";
        assert_eq!(made(file, 3, 2, 8), Ok(frames.into()));
        assert_eq!(made(file, 0, 2, 9), Ok("010001 010100 000001 000100".into()));
    }

    #[test]
    fn refusals() {
        assert_eq!(made("", 0, 0, 1), Err(16));
        assert_eq!(made("", 0, 17, 11), Err(16));
        assert_eq!(made("", 0, 1, 11), Err(4));
        assert_eq!(made(BOX, 0, 1, 11), Err(10));
        assert_eq!(made(BOX, 0, 1, usize::MAX), Err(10));
        assert_eq!(made(BOX, 0, 1, 0), Ok(String::new()));
    }
}
