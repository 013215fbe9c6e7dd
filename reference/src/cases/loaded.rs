//! Loads worked out by hand (document 02, E6): a program that draws, orders or refuses otherwise
//! makes other frames or gives another answer.
//!
//! What becomes of a case is told as text: the frames with blanks between, or a refusal as
//! `16 at 0`, with both places where the second is used.

use super::asks::Ask;
use super::made::{case, file, on_a_line, X_Y};
use super::Case;
use crate::check::check;
use crate::frames::THREADS;
use crate::limits::MOST_BYTES;
use crate::lines::load_lines;

/// A file, what it is asked for, what this is there for, and what becomes of it.
pub struct Loaded {
    pub what: &'static str,
    pub file: Vec<u8>,
    pub ask: Ask,
    pub told: String,
}

const X: &str = "var x = 0 in 0..1;";

/// Region 0 puts, region 1 gets.
const BOX: &str = "monitor box { var full = 0 in 0..1; keep true; \
                   method put { waituntil (full == 0) { full := 1; } } \
                   method get { waituntil (full == 1) { full := 0; } } }";

const TAKE: &str = "waituntil (x == 1) { x := 0; }";
const PUT: &str = "waituntil (x == 0) { x := 1; }";
const STAY: &str = "waituntil (true) { }";

/// All of them.
pub fn loaded() -> Vec<Loaded> {
    let mut loaded = Vec::new();
    let mut add = |what, file: String, numbers: [usize; 4], told: &str| {
        let [seed, threads, wanted, room] = numbers;
        let ask = Ask { seed: u32::try_from(seed).expect("a seed"), threads, wanted, room };
        loaded.push(Loaded { what, file: file.into_bytes(), ask, told: told.into() });
    };
    one_thread(&mut add);
    several(&mut add);
    queues(&mut add);
    due(&mut add);
    ends(&mut add);
    starts(&mut add);
    refusals(&mut add);
    rooms(&mut add);
    loaded
}

/// The numbers are the seed, the count of threads, the wanted count and the buffer's length.
type Add<'a> = dyn FnMut(&'static str, String, [usize; 4], &str) + 'a;

/// A file that keeps every state and has no tries.
fn plain(variables: &str, regions: &[&str]) -> String {
    file(variables, "true", &[], regions)
}

/// What a draw decides where two frames are allowed. While Box is empty they are 000001 and 000100,
/// while it is full 000000 and 000101.
fn one_thread(add: &mut Add) {
    let mut on_box = |what, numbers, told| add(what, BOX.into(), numbers, told);
    // 3C6E, 4750: even, even. The thread waits to put, and nobody gets.
    on_box("seed 0, one thread", [0, 1, 20, 140], "000001 000000");
    // 3CA1: odd.
    on_box("seed 2, one thread", [2, 1, 20, 140], "000100");
    // 3CD4, A431, 8EF1: even, odd, odd.
    on_box("seed 4, one thread", [4, 1, 20, 140], "000001 000101 000100");
    // 3C55 of the number 3C558D52: odd.
    on_box("the highest seed, one thread", [u32::MAX as usize, 1, 20, 140], "000100");
    // BC6E, C750: as of seed 0, whose numbers differ in the highest bit alone.
    on_box("seed 2147483648, one thread", [1 << 31, 1, 20, 140], "000001 000000");
    // A27B of the number A27BF35F: odd.
    on_box("seed 65536, one thread", [1 << 16, 1, 20, 140], "000100");
    // 3D6C, 2F83, AAA7: even, odd, odd.
    on_box("seed 10, two of three frames", [10, 1, 2, 14], "000001 000101");
    // 23852, 13815, 50676, 57885, 20836, 24011, 38400, 63603, 25150, 35376.
    let told = "000001 000101 000001 000101 000001 000101 000001 000101 000001 000000";
    on_box("seed 330, one thread", [330, 1, 12, 84], told);
}

/// Threads are ordered by number, and each one's frames by region.
fn several(add: &mut Add) {
    let mut on_box = |what, numbers, told: &str| add(what, BOX.into(), numbers, told);
    // 15470 % 4 is 2; 18256 % 4 is 0; thread 0 waits, 53708 % 2 is 0.
    on_box("seed 0, two threads", [0, 2, 9, 63], "010001 000000 010000");
    // 15547 % 4 is 3; thread 1 waits, 36089 % 2 is 1.
    on_box("seed 3, two threads", [3, 2, 9, 63], "010100 000100");
    // 15572 % 4, 42033 % 4, 36593 % 4 are 0, 1, 1. Thread 0 waits, 53472 % 2 is 0 and tells it.
    // 000101, 010000, 010101: 3273 % 3 is 0. 40150 % 4, 4448 % 4 are 2, 0. 19965 % 2 is 1 and tells
    // thread 0. 000001, 010001, 010100: 35562 % 3 is 0.
    let nine = "000001 000101 000100 010001 000101 010001 000000 010101 000001";
    on_box("seed 4, two threads", [4, 2, 9, 63], nine);
    on_box("the same, the first six", [4, 2, 6, 42], &nine[..41]);
    // 15470 % 32 is 14: of thread 7 region 0. 18256 % 32 is 16. Without thread 8, 53708 % 30 is 8.
    // Without 4 and 8, 43769 % 28 is 5, and both are told. 25170 % 29 is 27, behind 080001.
    // 40750 % 28 is 10: threads 4 and 8 could only recheck.
    let sixteen = "070001 080000 040000 020101 0F0001 060000";
    on_box("seed 0, sixteen threads", [0, THREADS, 6, 42], sixteen);
    // Of thirty frames 15470 % 30 is 20, 18256 % 30 is 16; then 53708 % 28 is 4.
    on_box("seed 0, fifteen threads", [0, 15, 3, 21], "0A0001 080000 020000");
    // Three methods, all regions true: 15470 % 6 is 2, 18256 % 6 is 4, 53708 % 6 is 2.
    let three = plain(X, &[STAY, STAY, STAY]);
    add("three methods", three.clone(), [0, 2, 3, 21], "000201 010101 000201");
    // 15521 % 9 is 5, 30144 % 9 is 3, 12383 % 9 is 8, 48621 % 9 is 3.
    add("three methods, three threads", three, [2, 3, 4, 28], "010201 010001 020201 010001");
    // Regions 0 and 2 begin methods: 15470 % 2 is 0, then region 1 is due; 53708 % 2 is 0.
    let walk = plain(X, &[&format!("{STAY} {STAY}"), STAY]);
    add("a region inside a method", walk, [0, 1, 3, 21], "000001 000101 000001");
}

/// Waiters resume by arrival, and the frame of one that could only recheck is left out.
fn queues(add: &mut Add) {
    let mut on_box = |what, numbers, told| add(what, BOX.into(), numbers, told);
    // 15521 % 4 is 1; 30144 % 2 is 0, and thread 0 is told. 000101, 010000, 010101: 12383 % 3 is 2.
    // Thread 0 could only recheck: 48621 % 2 is 1.
    let told = "000100 010001 010101 010100";
    on_box("only a recheck is left", [2, 2, 9, 63], told);
    // 17071 % 4 is 3; 65070 % 2 is 0, and thread 1 is told. 000000, 000101, 010101: 62662 % 3 is 1.
    // 65529 % 2 is 1.
    let told = "010100 000001 000101 000100";
    on_box("only a recheck is left, of thread 1", [63, 2, 9, 63], told);
    // 15851 % 6 is 5, 41885 % 4 is 1: threads 2 and 0 wait. 5908 % 2 is 0, and both are told. 010000,
    // 010101, 020101: thread 0 is not the earliest; 14621 % 3 is 2. Thread 0 could only recheck:
    // 24973 % 4 is 1, 54884 % 2 is 0.
    let told = "020100 000100 010001 020101 010100 020001";
    on_box("the earlier of two waiters", [15, 3, 6, 42], told);
    // The same up to 29 % 3, which is 2. 24698 % 4 is 2: thread 2 puts. 000101 is the first of five:
    // 35350 % 5 is 0.
    let told = "020100 000100 010001 020101 020001 000101";
    on_box("the earlier of two waiters, then the later", [36, 3, 6, 42], told);
    // 23115 % 6 is 3, 38037 % 4 is 1, 60078 % 2 is 0. 010101, 020000, 020101: 53070 % 3 is 0.
    // 64908 % 4 is 0, and thread 0 is told. 000101, 010000 and three more: 44746 % 5 is 1.
    let told = "010100 000100 020001 010101 010001 010000";
    on_box("the earlier of two waiters, thread 1", [301, 3, 6, 42], told);
    // Two regions share a guard and so a queue. 29110 % 9 is 4, 64650 % 6 is 0, 33284 % 3 is 2: thread
    // 1 waits at region 1, thread 0 at region 0, and thread 2 puts. 010101, and three of thread 2:
    // 35760 % 4 is 0.
    let shared = plain(X, &[TAKE, TAKE, PUT]);
    let told = "010100 000000 020201 010101";
    add("one queue for two regions", shared, [537, 3, 4, 28], told);
    // 22836 % 9 is 3, 38185 % 6 is 1, 25226 % 3 is 2: thread 1 waits for x, thread 0 for y, thread 2
    // sets both. 000101, 010001 and three of thread 2: 26385 % 5 is 0. 43207 % 7 is 3, behind three of
    // thread 0.
    let take_y = "waituntil (y == 1) { y := 0; }";
    let both = plain(X_Y, &[TAKE, take_y, "waituntil (true) { x := 1; y := 1; }"]);
    let told = "010000 000100 020201 000101 010001";
    add("two guards at once", both.clone(), [290, 3, 5, 35], told);
    // 15042 % 9 is 3, 57307 % 6 is 1, 33176 % 3 is 2, 38160 % 5 is 0: the same.
    add("two guards at once, seed 7724", both, [7724, 3, 4, 28], &told[..27]);
}

/// While a thread is due its frame alone is allowed, and spends a draw.
fn due(add: &mut Add) {
    // Regions 0 and 1 are a method, region 2 is one.
    let walk = plain(X, &[&format!("{STAY} {STAY}"), STAY]);
    // Even, (odd,) odd, even, (odd,) even.
    let told = "000001 000101 000201 000001 000101 000001";
    add("a draw for a due thread", walk.clone(), [4, 1, 6, 42], told);
    // Odd, even, (odd,) odd, odd, even.
    let told = "000201 000001 000101 000201 000201 000001";
    add("a draw for a due thread, seed 2", walk.clone(), [2, 1, 6, 42], told);
    add("the run ends with a thread due", walk, [4, 1, 1, 7], "000001");

    // Anyone may begin the method, and then takes; region 2 puts.
    let takes = plain(X, &[&format!("{STAY} {TAKE}"), PUT]);
    // 15470 % 4 is 2; thread 1 is due and waits. 53708 % 2 is 0; thread 0 is due and waits.
    let told = "010001 010100 000001 000100";
    add("due, and then waiting", takes.clone(), [0, 2, 9, 63], told);
    // 15547 % 4 is 3; 36089 % 4 is 1, and thread 0 waits to put; 57256 % 2 is 0; thread 1 takes and
    // tells thread 0. 000201, 010001, 010201: 25131 % 3 is 0. 56684 % 4 is 0; then 25460 % 4 is 0.
    let told = "010201 000200 010001 010101 000201 000001 000101 000001";
    add("due, and then running", takes, [3, 2, 8, 56], told);

    // One method of two regions is all there is: each draw has one frame to choose from.
    let one = plain(X, &[&format!("{PUT} {TAKE}")]);
    add("one frame at a time", one, [77, 1, 5, 35], "000001 000101 000001 000101 000001");
    // 15978 % 4 is 2, 6071 % 2 is 1, and thread 1 is told. 000001, 000200, 010001: 33665 % 3 is 2.
    // Thread 1 is due and waits again; 46753 % 2 is 1.
    let twice = plain(X, &[&format!("{TAKE} {TAKE}"), PUT]);
    let told = "010000 000201 010001 010100 000201";
    add("resumed, due and waiting", twice, [20, 2, 5, 35], told);
}

/// Runs that end before the wanted count, and one that never would.
fn ends(add: &mut Add) {
    let never = plain(X, &[TAKE]);
    // 15470 % 3 is 2, 18256 % 2 is 0, and thread 1 alone is left.
    add("all wait", never.clone(), [0, 3, 5, 35], "020000 000000 010000");
    add("all wait, just as wanted", never.clone(), [0, 3, 3, 21], "020000 000000 010000");
    add("all but one wait", never.clone(), [0, 3, 2, 14], "020000 000000");
    // 15470 % 16, 18256 % 15, 53708 % 14, 43769 % 13, 25170 % 12, 40750 % 11, 22526 % 10, 41945 % 9,
    // 33277 % 8, 38128 % 7 and so on, each among those who are left.
    let told = "0E0000 010000 050000 0D0000 080000 090000 0A0000 070000 \
                0B0000 0F0000 030000 040000 0C0000 020000 000000 060000";
    add("sixteen wait", never, [0, THREADS, 20, 140], told);
    // Nobody ever waits, and there are no rechecks.
    let always = plain(X, &[STAY]);
    add("nobody waits", always, [0, 1, 4, 28], "000001 000001 000001 000001");
    // The first body closes the door for good.
    let once = plain(X, &[PUT]);
    // 15521 % 2 is 1; 30144 % 2 is 0; one is left.
    add("once, and then all wait", once, [2, 2, 9, 63], "010001 000000 010000");
    // Example 7. 15597 % 16, 47977 % 16, 15930 % 16 are 13, 9, 10: thread 2 writes. 55898 % 16 is 10,
    // 46950 % 12 is 6, 23616 % 8 is 0, 32696 % 4 is 0: all wait, and nobody stops writing.
    let regions = [
        "waituntil (writer == 0 && readers < 3) { readers := readers + 1; }",
        "waituntil (true) { if (readers > 0) { readers := readers - 1; } }",
        "waituntil (readers == 0 && writer == 0) { writer := 1; }",
        "waituntil (true) { writer := 0; }",
    ];
    let rooms = plain("var readers = 0 in 0..3; var writer = 0 in 0..1;", &regions);
    let told = "030101 020101 020201 020200 010200 000000 030000";
    add("readers and writers", rooms, [5, 4, 9, 63], told);
}

/// The run begins at the start values, whatever the kept condition and the tries.
fn starts(add: &mut Add) {
    let full = BOX.replace("full = 0", "full = 1");
    // Even: 000000, and nobody gets. Odd, even: 000101, 000001.
    add("a full box", full.clone(), [0, 1, 5, 35], "000000");
    add("a full box, seed 2", full, [2, 1, 2, 14], "000101 000001");
    let down = ["waituntil (x > -1) { x := x - 1; }", "waituntil (x mod 2 == 1) { x := 1; }"];
    // From 1: 000001 and 000101; 15470 % 2 is 0. From 0: 000001 and 000100; 18256 % 2 is 0. From -1:
    // 000000 and 000101; 53708 % 2 is 0, and nobody is left.
    let tried = file("var x = 1 in -1..2;", "x < 2", &["x != 0", "x < 3"], &down);
    add("below 0, with keep and tries", tried, [0, 1, 5, 35], "000001 000001 000000");
}

/// 16 comes before all others, and 10 behind those of the file.
fn refusals(add: &mut Add) {
    let mut on_box = |what, numbers, told| add(what, BOX.into(), numbers, told);
    on_box("no threads", [0, 0, 3, 21], "16 at 0");
    on_box("seventeen threads", [0, THREADS + 1, 3, 21], "16 at 0");
    on_box("257 threads", [0, 257, 3, 21], "16 at 0");
    on_box("65,537 threads", [0, 65_537, 3, 21], "16 at 0");
    on_box("4,294,967,297 threads", [0, (1 << 32) + 1, 3, 21], "16 at 0");
    on_box("8,589,934,594 threads", [0, (1 << 33) + 2, 3, 21], "16 at 0");
    on_box("as many threads as can be said", [0, usize::MAX, 3, 21], "16 at 0");
    on_box("no threads and nothing wanted", [0, 0, 0, 0], "16 at 0");
    on_box("seventeen threads and no room", [0, THREADS + 1, 3, 20], "16 at 0");
    let long = " ".repeat(MOST_BYTES + 1);
    add("seventeen threads and a long file", long.clone(), [0, THREADS + 1, 0, 0], "16 at 0");
    add("no threads and a long file", long.clone(), [0, 0, 1, 7], "16 at 0");
    add("no threads and an empty file", String::new(), [0, 0, 1, 7], "16 at 0");
    add("a long file", long.clone(), [0, 1, 0, 0], "1 at 0");
    add("a long file and no room", long, [0, 1, 1, 6], "1 at 0");
    add("an empty file and no room", String::new(), [0, THREADS, 1, 6], "4 at 0");
    add("a file that ends early", "monitor m".into(), [0, 1, 1, 7], "4 at 9");
    let at = |from: &str, to: &str| BOX.replace(from, to);
    add("keep false at the start", at("keep true", "keep full == 1"), [0, 1, 2, 14], "8 at 36");
    let over = at("full := 1", "full := 2");
    add("a body out of range", over.clone(), [0, 1, 2, 14], "9 at 0 0");
    add("a body out of range, no threads", over.clone(), [0, 0, 2, 14], "16 at 0");
    add("a body out of range and no room", over, [0, 1, 2, 13], "9 at 0 0");
    let lacking = at("full == 0", "full mod 0 == 0");
    add("a remainder by 0", lacking, [0, 2, 2, 0], "15 at 76");
    add("an unknown name", at("full := 0", "empty := 0"), [0, 2, 2, 14], "6 at 136");
}

/// 10 goes by the wanted count, whatever comes out.
fn rooms(add: &mut Add) {
    let mut on_box = |what, numbers, told| add(what, BOX.into(), numbers, told);
    on_box("just enough room", [4, 1, 3, 21], "000001 000101 000100");
    on_box("a byte too short", [4, 1, 3, 20], "10 at 0");
    on_box("room for six bytes a frame", [4, 1, 3, 18], "10 at 0");
    on_box("more room than wanted", [4, 1, 2, 30], "000001 000101");
    on_box("no room, and one is wanted", [4, 1, 1, 0], "10 at 0");
    on_box("nothing wanted, no room", [4, 1, 0, 0], "");
    on_box("nothing wanted, some room", [4, 1, 0, 5], "");
    on_box("room for what comes out alone", [0, 1, 20, 14], "10 at 0");
    on_box("room for all but the last wanted", [0, 1, 20, 139], "10 at 0");
    on_box("as many as can be said", [0, 1, usize::MAX, 140], "10 at 0");
    on_box("as many as can be said, no room", [0, 1, usize::MAX, 0], "10 at 0");
    // Seven times these is 2^64 + 5 and 2^32 + 3, and 2^64 - 2 and 2^32 - 4 for one frame less.
    on_box("five more than 64 bits hold", [0, 1, usize::MAX / 7 + 1, 14], "10 at 0");
    on_box("twelve more than 64 bits hold", [0, 1, usize::MAX / 7 + 2, 14], "10 at 0");
    on_box("just within 64 bits", [0, 1, usize::MAX / 7, 14], "10 at 0");
    on_box("three more than 32 bits hold", [0, 1, u32::MAX as usize / 7 + 1, 14], "10 at 0");
    on_box("a multiple of 2^32", [0, 1, 1 << 32, 140], "10 at 0");
    on_box("a multiple of 2^61", [0, 1, 1 << 61, 140], "10 at 0");
}

impl Loaded {
    /// The frames that are told of, none of a refusal.
    pub fn frames(&self) -> &str {
        if self.told.contains(" at ") {
            ""
        } else {
            &self.told
        }
    }

    /// The file beside the trace that is made of it, which both machines accept.
    pub fn case(&self) -> Case {
        case(String::from_utf8(self.file.clone()).expect("a text"), self.frames())
    }
}

/// So small that a proof by computation takes them.
const MOST_SMALL: [usize; 3] = [4, 4, 6];

/// Whether a case has few states, few regions and few frames, or is refused and has few bytes.
pub fn is_small(one: &Loaded) -> bool {
    let Ok(monitor) = check(&one.file) else { return one.file.len() <= 200 };
    let frames = one.told.split(' ').count();
    let sizes = [monitor.count_of_states(), monitor.regions.len(), frames];
    sizes.iter().zip(MOST_SMALL).all(|(size, most)| *size <= most) && one.ask.room <= 200
}

/// The small ones, as text: of each its number and what it is there for; the file; the seed, the
/// threads, the wanted count and the buffer's length in decimal; and what the call gives as
/// `load` prints it. Lists have blanks between, and an empty line ends a case.
pub fn small_list() -> String {
    let mut text = String::new();
    for (number, one) in loaded().iter().filter(|one| is_small(one)).enumerate() {
        text += &format!("case {number}: {}\n", one.what);
        text += &format!("file: {}\n", on_a_line(&one.file));
        text += &format!("ask: {}", one.ask.text());
        text += &format!("load: {}\n\n", on_a_line(&load_lines(&one.file, one.ask)));
    }
    text
}
