//! Cases about the order in which waiters go, worked out by hand (document 02, E4): a program that
//! goes by number or loses an order prints something else, and one that counts turns otherwise has
//! other turns.
//!
//! How a case ends is told as text: a refusal as `14 at 3`; else the values, then the waiters by
//! arrival, each with its region, as in `0,1: 5@0 3@1`. Where the machines differ, the plain one's
//! end comes first, and ` / ` stands between.

use super::made::{case, file, on_a_line, X_Y};
use super::Case;
use crate::check::check;
use crate::lines::{placer, runner};
use crate::machines::{run, Machine};

/// A case, what it is there for, and how both machines end.
pub struct Queued {
    pub what: &'static str,
    pub ends: String,
    pub case: Case,
}

const X: &str = "var x = 0 in 0..1;";

/// Region 0 puts and signals guard 1, region 1 gets and signals guard 0.
const BOX: &str = "monitor box { var full = 0 in 0..1; keep true; \
                   method put { waituntil (full == 0) { full := 1; } } \
                   method get { waituntil (full == 1) { full := 0; } } }";

const TAKE: &str = "waituntil (x == 1) { x := 0; }";
const LOOK: &str = "waituntil (x == 1) { }";
const PUT: &str = "waituntil (x == 0) { x := 1; }";

/// All of them.
pub fn queued() -> Vec<Queued> {
    let mut queued = Vec::new();
    let mut add = |what, file, frames: &str, ends: &str| {
        queued.push(Queued { what, ends: ends.into(), case: case(file, frames) });
    };
    signals(&mut add);
    coming_back(&mut add);
    notices(&mut add);
    rechecks(&mut add);
    broadcasts(&mut add);
    shared(&mut add);
    guards(&mut add);
    due(&mut add);
    conditional(&mut add);
    sixteen(&mut add);
    long(&mut add);
    queued
}

type Add<'a> = dyn FnMut(&'static str, String, &str, &str) + 'a;

/// A file that keeps every state and has no tries.
fn plain(variables: &str, regions: &[&str]) -> String {
    file(variables, "true", &[], regions)
}

/// Whom a signal picks and who resumes: the earliest, whatever the numbers.
fn signals(add: &mut Add) {
    let mut on_box = |what, frames: &str, ends| add(what, BOX.into(), frames, ends);
    on_box("example 4", "010100 000100 020001 010101", "0: 0@1");
    on_box("the later one, though its number is lower", "010100 000100 020001 000101", "14 at 3");
    on_box("the highest number before the lowest", "0F0100 000100 020001 0F0101", "0: 0@1");
    on_box("the lowest number behind the highest", "0F0100 000100 020001 000101", "14 at 3");
    on_box("in rising order", "000100 0F0100 020001 000101", "0: 15@1");
    on_box("in rising order, the later one", "000100 0F0100 020001 0F0101", "14 at 3");

    let four = "030100 020100 010100 000100 040001 030101 040001";
    let rest = "020101 040001 010101 040001 000101";
    on_box("four in falling order", &format!("{four} {rest}"), "0:");
    on_box("of four the last before the second", &format!("{four} 000101"), "14 at 7");
    on_box("of four the third before the second", &format!("{four} 010101"), "14 at 7");

    // Thread 9 puts, and threads 5 and 1 wait to put.
    let full = "090001 050000 010000 020101";
    on_box("waiters to put", &format!("{full} 050001"), "1: 1@0");
    on_box("waiters to put, the later one", &format!("{full} 010001"), "14 at 4");
}

/// A thread that has run and waits again stands at the back; one that need not wait is in no
/// queue.
fn coming_back(add: &mut Add) {
    let mut on_box = |what, frames: &str, ends| add(what, BOX.into(), frames, ends);
    on_box("a newcomer runs past a waiter", "050100 010001 000101 050100", "0: 5@1");
    let back = "000100 050100 010001 000101 000100 010001";
    on_box("who comes back goes behind", &format!("{back} 050101"), "0: 0@1");
    on_box("who comes back and wants to go first", &format!("{back} 000101"), "14 at 6");
    let round = "030001 020101 020100 030001 010101 010100 030001 000101 000100";
    let twice = format!("020100 010100 000100 {round} 030001 020101 020100 030001 010101");
    on_box("three in turn, twice round", &twice, "0: 0@1 2@1");
}

/// A signal picks the earliest though it has a notice already: the next one gets none. Threads 1
/// and 0 wait, thread 2 puts, thread 3 gets what thread 1 was told of, and thread 2 puts again.
fn notices(add: &mut Add) {
    let mut on_box = |what, frames: &str, ends| add(what, BOX.into(), frames, ends);
    let twice = "010100 000100 020001 030101 020001";
    on_box("told twice", &format!("{twice} 010101"), "0: 0@1");
    on_box("told twice, the other rechecks", &format!("{twice} 010101 000100"), "0: 0@1 / 14 at 6");
    on_box("told twice, the other resumes", &format!("{twice} 000101"), "14 at 5");
    let rising = "000100 010100 020001 030101 020001 000101 010100";
    on_box("told twice in rising order, the other rechecks", rising, "0: 1@1 / 14 at 6");
    let thrice = format!("{twice} 030101 020001 010101 020001 000101");
    on_box("told thrice, then the other", &thrice, "0:");
    let of_three = "020100 010100 000100 040001 050101 040001 050101 040001 020101 000100";
    on_box("told thrice, the third rechecks", of_three, "0: 1@1 0@1 / 14 at 9");
}

/// A recheck keeps its place.
fn rechecks(add: &mut Add) {
    let mut on_box = |what, frames: &str, ends| add(what, BOX.into(), frames, ends);
    let falling = "010100 000100 020001 030101 010100 020001";
    on_box("a recheck keeps its place", &format!("{falling} 010101"), "0: 0@1");
    on_box("behind a recheck", &format!("{falling} 000101"), "14 at 6");
    let rising = "000100 050100 020001 030101 000100 020001";
    on_box("a recheck in rising order", &format!("{rising} 000101"), "0: 5@1");
    on_box("behind a recheck in rising order", &format!("{rising} 050101"), "14 at 6");
    let between = "010100 020001 030101 000100 010100 020001 010101";
    on_box("one arrives before the recheck", between, "0: 0@1");
    let again = "010100 000100 020001 030101 010100 020001 030101 010100 020001 010101";
    on_box("two rechecks of the earliest", again, "0: 0@1");

    // All three are told twice, and recheck between in the order 2, 1, 3.
    let all = "030000 010000 020000 040101 050001 050001 020000 010000 030000 040101";
    add("all recheck", pool(), &format!("{all} 030001 010001"), "0: 2@0");
    add("all recheck, the last wants to go first", pool(), &format!("{all} 020001"), "14 at 10");
    add("all recheck, the second wants to go first", pool(), &format!("{all} 010001"), "14 at 10");
}

/// Region 0 takes one, region 1 adds two and tells all who wait to take: 01000101. Region 0 makes
/// `x < 2` true from 2 alone: 00010000.
fn pool() -> String {
    let regions = ["waituntil (x > 0) { x := x - 1; }", "waituntil (x < 2) { x := x + 2; }"];
    plain("var x = 0 in 0..3;", &regions)
}

/// All are told, and resume by arrival.
fn broadcasts(add: &mut Add) {
    let told = "030000 010000 020101";
    add("a broadcast", pool(), &format!("{told} 030001 010001"), "0:");
    add("a broadcast, the later one first", pool(), &format!("{told} 010001"), "14 at 3");
    // Thread 4 takes both before thread 1 comes.
    let between = "030000 020101 040001 040001 010000 020101";
    add("one comes between broadcasts", pool(), &format!("{between} 030001 010001"), "0:");
    add("one comes between and is first", pool(), &format!("{between} 010001"), "14 at 6");

    let gate = plain(X, &[LOOK, PUT]);
    let looks = "070000 030000 050000 000101 070001";
    add("all look", gate.clone(), &format!("{looks} 030001 050001"), "1:");
    add("all look, the last before the second", gate, &format!("{looks} 050001"), "14 at 5");

    // By the try region 1 always leaves its guard false, and the broadcast becomes a signal.
    let regions = [
        "waituntil (x == 0) { x := 2; }",
        "waituntil (x > 1) { if (x == 2) { x := 0; } else { x := 2; } }",
    ];
    let frames = "010100 000100 020001 010101 000100";
    let states = "var x = 0 in 0..3;";
    add("a broadcast without the try", plain(states, &regions), frames, "0: 0@1");
    let by_try = file(states, "true", &["x < 3"], &regions);
    add("a signal by a try", by_try, frames, "0: 0@1 / 14 at 4");
}

/// Regions that share a guard have one queue.
fn shared(add: &mut Add) {
    // Thread 1 waits at region 1, then thread 0 at region 0.
    let waits = "010100 000000 020201";
    let both_take = plain(X, &[TAKE, TAKE, PUT]);
    let first = format!("{waits} 010101");
    add("the earlier one at the higher region", both_take.clone(), &first, "0: 0@0");
    let second = format!("{waits} 000001");
    add("the later one at the lower region", both_take.clone(), &second, "14 at 3");
    let other = "000000 010100 020201 000001";
    add("the earlier one at the lower region", both_take, other, "0: 1@1");
    // Looking leaves the guard true: a broadcast.
    let looks = plain(X, &[TAKE, LOOK, PUT]);
    let each = format!("{waits} 010101 000001");
    add("one looks and one takes", looks.clone(), &each, "0:");
    add("one takes before the other looks", looks, &second, "14 at 3");
    let spelled = plain(X, &[TAKE, "waituntil (x == 01) { x := 0; }", PUT]);
    add("one guard, spelled twice", spelled, &second, "14 at 3");
    // Guards 0 and 1 hold together, but each has its own queue.
    let apart = plain(X, &[TAKE, "waituntil (1 == x) { x := 0; }", PUT]);
    add("two guards that mean the same", apart, &second, "0: 1@1");
}

/// Region 0 waits for x and region 1 for y; region 2 sets x and region 3 sets y.
fn two() -> String {
    let set_x = "waituntil (true) { x := 1; }";
    let set_y = "waituntil (true) { y := 1; }";
    plain(X_Y, &[TAKE, "waituntil (y == 1) { y := 0; }", set_x, set_y])
}

/// Turns count all who wait, and who is first goes by guard.
fn guards(add: &mut Add) {
    let four = "050000 030100 010000 000100";
    let ends = "0,0: 5@0 1@0 0@1";
    add("turns over both guards", two(), &format!("{four} 070301 030101"), ends);
    let both = "050000 030100 070201 070301 030101";
    add("an earlier one is told on another guard", two(), both, "1,0: 5@0");
    let middle = "050000 030100 010000 070301 030101 030100";
    add("from the middle to the back", two(), middle, "0,0: 5@0 1@0 3@1");
    let front = "050000 030100 010000 070201 050001 050000 070201 010001";
    add("from the front to the back", two(), front, "0,0: 3@1 5@0");
    let last = "050000 030100 010000 070201 050001 070201 010001";
    add("the last one leaves", two(), last, "0,0: 3@1");
    let later = format!("{four} 070301 000101");
    add("the later one on the second guard", two(), &later, "14 at 5");

    // Region 2 sets both: the first of each guard is told.
    let set = "waituntil (true) { x := 1; y := 1; }";
    let at_once = plain(X_Y, &[TAKE, "waituntil (y == 1) { y := 0; }", set]);
    let waits = "040000 020100 030000 010100 050201";
    let ends = "0,0: 3@0 1@1";
    add("two guards at once", at_once.clone(), &format!("{waits} 020101 040001"), ends);
    add("two guards at once, the later one", at_once, &format!("{waits} 010101"), "14 at 5");
}

/// A due thread that gets 00 begins to wait then.
fn due(add: &mut Add) {
    // Regions 0 and 1 are one method: anyone may begin it, and then waits to take. Region 2 takes,
    // region 3 puts.
    let walk = plain(X, &[&format!("waituntil (true) {{ }} {TAKE}"), TAKE, PUT]);
    let waits = "050200 000001 000100";
    let first = format!("{waits} 070301 050201");
    add("a due thread goes to the back", walk.clone(), &first, "0: 0@1");
    let front = format!("{waits} 070301 000101");
    add("a due thread wants to go first", walk.clone(), &front, "14 at 4");
    let between = format!("{waits} 030200 070301 050201 070301 000101 070301 030201");
    add("a due thread between two others", walk.clone(), &between, "0:");
    // Its guard holds, so it takes what thread 5 was told of.
    let past = "050200 070301 000001 000101 050200";
    add("a due thread runs past a waiter", walk, past, "0: 5@2");

    // Regions 0 and 1 are one method, which looks and then takes; region 2 takes, region 3 puts.
    let looks = plain(X, &[&format!("{LOOK} {TAKE}"), TAKE, PUT]);
    let idle = "050200 030200 070301 000001 000101 030200 050200";
    add("idle and then due, past two waiters", looks.clone(), idle, "0: 5@2 3@2");
    let resumed = "050000 030200 070301 050001 050101 030200";
    add("resumed and then due, past the next one", looks.clone(), resumed, "0: 3@2");
    let waits = "050000 030200 070301 050001 070301";
    add("due, and another may not come between", looks, waits, "13 at 4");

    // Each takes twice, in one method.
    let twice = plain(X, &[&format!("{TAKE} {TAKE}"), PUT]);
    let back = "050000 010000 070201 050001 050100 070201";
    let both = format!("{back} 010001 010100 070201 050101");
    add("resumed, due and at the back", twice.clone(), &both, "0: 1@1");
    add("resumed, due and in front", twice, &format!("{back} 050101"), "14 at 6");

    let thrice = plain(X, &[&format!("{TAKE} {TAKE} {TAKE}"), PUT]);
    let waits = "040000 020000 070301 040001 040100 070301 020001 020100 \
                 070301 040101 040200 070301 020101 020200 070301";
    add("three regions", thrice.clone(), &format!("{waits} 040201"), "0: 2@2");
    add("three regions, the later one", thrice, &format!("{waits} 020201"), "14 at 15");
}

/// A signal that is given only where the guard holds, and guards of which nobody is told.
fn conditional(add: &mut Add) {
    let regions = ["waituntil (x == 2) { x := 0; }", "waituntil (x < 2) { x := x + 1; }"];
    let count = plain("var x = 0 in 0..2;", &regions);
    let waits = "030000 010000 040101";
    let second = format!("{waits} 040101 030001");
    add("a conditional signal", count.clone(), &second, "0: 1@0");
    let later = format!("{waits} 040101 010001");
    add("a conditional signal, the later one", count.clone(), &later, "14 at 4");
    add("before a conditional signal", count, &format!("{waits} 030000"), "14 at 3");
    let never = plain(X, &[LOOK, "waituntil (x == 0) { }"]);
    add("nobody is told", never, "050000 000000 030000 010101", "0: 5@0 0@0 3@0");
}

/// As many waiters as there are threads.
fn sixteen(add: &mut Add) {
    let all: Vec<usize> = (0..16).rev().collect();
    let waits: String = all.iter().map(|thread| format!("{thread:02X}0000 ")).collect();
    let never = plain(X, &[LOOK, "waituntil (x == 0) { }"]);
    let ends = format!("0: {}", at(&all, 0));
    add("sixteen on one guard", never, &waits, &ends);

    // Fifteen wait to get; thread 15 puts and waits to put. Each that gets makes it put again.
    let order = [14, 0, 13, 1, 12, 2, 11, 3, 10, 4, 9, 5, 8, 6, 7];
    let waits: String = order.iter().map(|thread| format!("{thread:02X}0100 ")).collect();
    let waits = waits + "0F0001 0F0000";
    let round = |thread: &usize| format!(" {thread:02X}0101 0F0001 0F0000");
    let five = waits.clone() + &order[..5].iter().map(round).collect::<String>();
    let ends = format!("1: {} 15@0", at(&order[5..], 1));
    add("sixteen on two guards, five leave", BOX.into(), &five, &ends);
    let every = waits.clone() + &order.iter().map(round).collect::<String>();
    add("sixteen on two guards, all leave", BOX.into(), &every, "1: 15@0");
    add("sixteen, the second before the first", BOX.into(), &(waits + " 000101"), "14 at 17");
    add("sixteen, the last before the second", BOX.into(), &(five + " 070101"), "14 at 32");
}

/// Waiters in this order at a region.
fn at(threads: &[usize], region: usize) -> String {
    let waiters: Vec<String> = threads.iter().map(|thread| format!("{thread}@{region}")).collect();
    waiters.join(" ")
}

/// More arrivals than eight bits count, and the queue is never empty.
fn long(add: &mut Add) {
    let round = " 050100 010001 000101 000100 010001 050101";
    let rounds = "000100".to_string() + &round.repeat(150);
    add("301 arrivals", BOX.into(), &rounds, "0: 0@1");
    let refused = rounds + " 050100 010001 050101";
    add("301 arrivals and one too early", BOX.into(), &refused, "14 at 903");
    let round = " 030001 020101 020100 030001 010101 010100 030001 000101 000100";
    let rounds = "020100 010100 000100".to_string() + &round.repeat(300);
    add("three in turn, three hundred times round", BOX.into(), &rounds, "0: 2@1 1@1 0@1");
}

/// So small that a proof by computation takes them.
const MOST_SMALL: [usize; 3] = [4, 4, 7];

/// Whether a case has few states, few regions and few frames.
pub fn is_small(case: &Case) -> bool {
    let Ok(monitor) = check(&case.monitor) else { return false };
    let sizes = [monitor.count_of_states(), monitor.regions.len(), case.trace.len() / 7];
    sizes.iter().zip(MOST_SMALL).all(|(size, most)| *size <= most)
}

/// The small ones, as text: of each its number and what it is there for; the file; the frames;
/// what `placer` prints; what `runner` prints; the sixteen turns at the end of the plain machine's
/// run and of the table's, two digits each, `-` if it is refused. Lists have blanks between, and an
/// empty line ends a case.
pub fn small_list() -> String {
    let mut text = String::new();
    let small = queued().into_iter().filter(|queued| is_small(&queued.case));
    for (number, Queued { what, case: Case { monitor, trace }, .. }) in small.enumerate() {
        text += &format!("case {number}: {what}\n");
        text += &format!("file: {}\n", on_a_line(&monitor));
        text += &format!("trace: {}\n", on_a_line(&trace));
        text += &format!("placer: {}\n", on_a_line(&placer(&monitor)));
        text += &format!("runner: {}\n", on_a_line(&runner(&monitor, &trace)));
        let [plain, table] =
            [Machine::Plain, Machine::Table].map(|machine| turns(&monitor, &trace, machine));
        text += &format!("turns: {plain} {table}\n\n");
    }
    text
}

fn turns(file: &[u8], trace: &[u8], machine: Machine) -> String {
    let start = check(file).map_or(0, |monitor| monitor.start_number());
    let turns = run(file, trace, start, machine).map(|record| record.turns);
    turns.map_or("-".to_string(), |turns| turns.map(|turn| format!("{turn:02X}")).concat())
}
