//! inputs DIR    writes the inputs to measure: directories of `monitor.txt` and
//! `trace.txt`. No clock is read: they are the same every time.

use std::fs;
use std::io;
use std::path::Path;

use twin::check::{check, Checked};
use twin::machines::{Frame, Machine, Machines, Place, Run, THREADS};
use twin::table::place;

/// As many frames as `runner` reads: 65,534 bytes.
const MOST_FRAMES: usize = 9362;

const MOST_STATES: usize = 4096;

const NAMES: [&str; 6] = ["a", "b", "c", "d", "e", "f"];

fn main() -> io::Result<()> {
    let directory = std::env::args().nth(1).ok_or(io::Error::other("usage: inputs DIR"))?;
    let directory = Path::new(&directory);
    write(directory, "worst", &worst_file(), MOST_FRAMES)?;
    write(directory, "guards", &guards_file(), 0)?;
    write(directory, "tries", &tries_file(), MOST_FRAMES)?;
    write(directory, "wide", &wide_file([4; 6]), MOST_FRAMES)?;
    write(directory, "wide-odd", &wide_file([5, 4, 5, 3, 3, 4]), MOST_FRAMES)?;
    write(directory, "mod", &mod_file(), MOST_FRAMES)?;
    write(directory, "longest", LONGEST, MOST_FRAMES)?;
    write_drawn(directory, "queue", QUEUE, MOST_FRAMES, queueing)?;
    write(directory, "gate", GATE, 0)?;
    write(directory, "gates", &gates_file(), 0)?;
    for eighths in 0..=8 {
        let frames = MOST_FRAMES * eighths / 8;
        write(directory, &format!("frames-{frames:04}"), LONGEST, frames)?;
        write_drawn(directory, &format!("queue-frames-{frames:04}"), QUEUE, frames, queueing)?;
    }
    for power in 0..=MOST_STATES.ilog2() {
        let states = 1 << power;
        write(directory, &format!("states-{states:04}"), &growing_file(states), 0)?;
    }
    Ok(())
}

fn write(directory: &Path, name: &str, file: &str, frames: usize) -> io::Result<()> {
    write_drawn(directory, name, file, frames, crowding)
}

fn write_drawn(
    directory: &Path,
    name: &str,
    file: &str,
    frames: usize,
    weight: Weight,
) -> io::Result<()> {
    let refused = |refusal| io::Error::other(format!("{name}: {refusal:?}"));
    let checked = check(file.as_bytes()).map_err(refused)?;
    let directory = directory.join(name);
    fs::create_dir_all(&directory)?;
    fs::write(directory.join("monitor.txt"), file)?;
    fs::write(directory.join("trace.txt"), trace(&checked, frames, weight))
}

/// The worst file: 1,024 tokens, 4,096 states, 16 regions, 16 guards, and a table
/// of 240 lines. Little of it is passed over: all comparisons of a guard but the
/// last hold in every state, and the last in most; a body is a list of assignments.
fn worst_file() -> String {
    file_of(MOST_STATES, guard, |region| {
        let [a, b, c, d, e, f] = [0, 1, 2, 3, 4, 5].map(|k| name(region + k));
        format!("{a} := 3 - {b}; {b} := {d}; {d} := {c}; {c} := {f}; {f} := {e};")
    })
}

/// As many tokens and states, but all in the guards: bodies are empty, and so is the
/// table, since no region touches a guard.
fn guards_file() -> String {
    let guard = |region| {
        let [x, y] = [region, region + 1].map(name);
        format!("{}{x} + {y} != {}", comparisons(region, 12), region / 6)
    };
    file_of(MOST_STATES, guard, |_| String::new())
}

/// As many tokens, states, regions and guards, and sixteen tries that fall one a pass:
/// the last region counts `a` up, so that each try needs the next and none stays. All
/// comparisons but one of each try hold in every state.
fn tries_file() -> String {
    let highest = [31, 3, 3, 1, 1, 1];
    let within = |first: usize, count: usize| -> String {
        let numbers = (first..first + count).map(|number| number % NAMES.len());
        numbers.map(|number| format!("{} <= {} && ", NAMES[number], highest[number])).collect()
    };
    let mut file = String::from("monitor tries {\n");
    for (name, highest) in NAMES.iter().zip(highest) {
        file += &format!("  var {name} = 0 in 0..{highest};\n");
    }
    file += &format!("  keep {}!a > 31;\n", within(0, 4));
    for value in (1..=16).rev() {
        file += &format!("  try {}a != {value};\n", within(value, 2));
    }
    let region = |number: usize| {
        let [x, y, z] = [number, number + 1, number + 2].map(name);
        let sum = format!("{x} + {y} - {z}");
        match number {
            15 => {
                let guard = format!("a < 31 && {}{sum} != 99", within(number, 1));
                format!("waituntil ({guard}) {{ a := a + 1; {TURNED} }}")
            }
            _ => {
                let guard = format!("{}{sum} != {}", within(number, 2), number / 6);
                format!("waituntil ({guard}) {{ b := 3 - c; {TURNED} }}")
            }
        }
    };
    file + &methods(region) + "}\n"
}

const TURNED: &str = "c := b; d := 1 - e; e := f; f := d;";

/// Six variables with ranges of the given sizes, and sixteen regions with a guard each:
/// guard and body name one variable, the same. Six methods step a variable round, so that
/// someone can always move; in two more a thread goes from variable to variable and
/// waits for each. The kept condition names all variables.
fn wide_file(sizes: [usize; 6]) -> String {
    const WORDS: [&str; 6] = ["spring", "gas", "tap", "gate", "lamp", "relay"];
    let variables: Vec<(&str, usize)> =
        WORDS.into_iter().zip(sizes).map(|(word, size)| (word, size - 1)).collect();
    let mut file = String::from("monitor wide {\n");
    for (word, highest) in &variables {
        file += &format!("  var {word} = 0 in 0..{highest};\n");
    }
    let within: Vec<String> =
        variables.iter().map(|(word, highest)| format!("{word} <= {highest}")).collect();
    file += &format!("  keep {};\n", within.join(" && "));
    for (word, highest) in &variables {
        let body =
            format!("if ({word} < {highest}) {{ {word} := {word} + 1; }} else {{ {word} := 0; }}");
        file += &format!("  method step_{word} {{ waituntil ({word} >= 0) {{ {body} }} }}\n");
    }
    file += "  method wear {\n";
    for (word, _) in &variables[..4] {
        file += &format!("    waituntil ({word} > 0) {{ {word} := {word} - 1; }}\n");
    }
    file += "  }\n  method service {\n";
    for (word, highest) in &variables {
        file += &format!("    waituntil ({word} == 0) {{ {word} := {highest}; }}\n");
    }
    file + "  }\n}\n"
}

/// Sequence numbers that come round from 1 on, five of them, and sixteen regions with a guard each:
/// every guard, every body and the kept condition take remainders, by numbers and by `window`.
/// Five methods step a number round, so that someone can always move; in three more a thread goes
/// from region to region and waits.
fn mod_file() -> String {
    const NUMBERS: [(&str, usize); 5] =
        [("sent", 8), ("acked", 8), ("lane", 4), ("window", 4), ("beat", 4)];
    let step = |(word, size): (&str, usize)| format!("{word} := {word} mod {size} + 1;");
    let mut file = String::from("monitor mod_ {\n");
    for (word, size) in NUMBERS {
        file += &format!("  var {word} = 1 in 1..{size};\n");
    }
    let within = NUMBERS.map(|(word, size)| format!("{word} mod {size} < {size}"));
    file += &format!("  keep {} && lane mod window < 4;\n", within.join(" && "));
    for (word, size) in NUMBERS {
        let body = step((word, size));
        file += &format!(
            "  method step_{word} {{ waituntil ({word} mod {size} >= 0) {{ {body} }} }}\n"
        );
    }
    file += "  method even {\n";
    for (word, size) in NUMBERS {
        let body =
            format!("if ({word} mod 3 == 0) {{ {word} := 1; }} else {{ {} }}", step((word, size)));
        file += &format!("    waituntil ({word} mod 2 == 0) {{ {body} }}\n");
    }
    file += "  }\n  method window {\n";
    file += "    waituntil (sent mod window == acked mod window) { acked := acked mod 8 + 1; }\n";
    file += "    waituntil (sent - acked mod 8 != lane mod 3) { beat := 7 mod window + 1; }\n";
    file += "    waituntil (acked mod window == 0 || beat mod 4 == 1) {\n";
    file += "      if (sent mod lane == 0 && beat mod window != 1) { lane := lane mod 4 + 1; }\n    }\n";
    file += "  }\n  method reset {\n";
    for (word, size) in &NUMBERS[..3] {
        file += &format!(
            "    waituntil ({word} mod {size} == 1) {{ {word} := {size} - window mod 2; }}\n"
        );
    }
    file + "  }\n}\n"
}

/// As many regions and guards as can be, over 4,080 states, for loads that never end: each of eight
/// methods has a region to come in and one to go out. Thirteen close the gate behind them, and
/// whoever comes then opens it, so that never all wait; eight may be next to go out.
fn gates_file() -> String {
    let mut file =
        String::from("monitor gates {\n  var n = 0 in 0..16;\n  var shut = 0 in 0..1;\n");
    file += "  var a = 0 in 0..29;\n  var b = 0 in 0..3;\n  keep true;\n";
    for method in 0..8 {
        let come = "n := n + 1; if (n <= 13) { shut := 1; } else { shut := 0; }";
        let round = format!("if (a < {}) {{ a := a + 1; }} else {{ a := 0; }}", method + 22);
        file += &format!("  method m{method} {{\n");
        file += &format!("    waituntil (n < 16 && a + {method} >= 0) {{ {come} }}\n");
        file += &format!("    waituntil (shut == 0 && b + {method} >= 0) {{\n");
        file += &format!("      if (n > 0) {{ n := n - 1; }} {round}\n    }}\n  }}\n");
    }
    file + "}\n"
}

/// A file like the worst one with any power of two of states up to 4,096. Only the
/// ranges differ, and no body leaves them, however small they are.
fn growing_file(states: usize) -> String {
    file_of(states, guard, |region| {
        let [x, y, z] = [region, region + 2, region + 3].map(name);
        format!("{x} := 0; if ({y} > 0) {{ {y} := {y} - 1; }} {z} := {x};")
    })
}

fn file_of(
    states: usize,
    guard: impl Fn(usize) -> String,
    body: impl Fn(usize) -> String,
) -> String {
    let mut file = String::from("monitor worst {\n");
    let mut left = states;
    for name in NAMES {
        let size = left.min(4);
        left /= size;
        file += &format!("  var {name} = 0 in 0..{};\n", size - 1);
    }
    file += "  keep !a > 3;\n";
    let region = |number| format!("waituntil ({}) {{ {} }}", guard(number), body(number));
    file + &methods(region) + "}\n"
}

/// Eight methods with sixteen regions: the last has nine of them, the others one each.
fn methods(region: impl Fn(usize) -> String) -> String {
    let mut methods = String::new();
    for method in 0..8 {
        methods += &format!("  method m{method} {{\n");
        let behind = if method == 7 { 16 } else { method + 1 };
        for number in method..behind {
            methods += &format!("    {}\n", region(number));
        }
        methods += "  }\n";
    }
    methods
}

fn guard(region: usize) -> String {
    let [x, y, z] = [region, region + 1, region + 2].map(name);
    format!("{}{x} + {y} - {z} != {}", comparisons(region, 6), region / 6)
}

/// Comparisons that hold in every state, each with `&&` behind it.
fn comparisons(region: usize, count: usize) -> String {
    (region..region + count).map(|number| format!("{} <= 3 && ", name(number))).collect()
}

fn name(number: usize) -> &'static str {
    NAMES[number % NAMES.len()]
}

/// Few states and one gate, for loads that never end: twelve close it behind them, and whoever comes
/// then opens it.
const GATE: &str = "monitor gate {
  var n = 0 in 0..16;
  var shut = 0 in 0..1;
  keep true;
  method pass {
    waituntil (n < 16) { n := n + 1; if (n <= 12) { shut := 1; } else { shut := 0; } }
    waituntil (shut == 0) { if (n > 0) { n := n - 1; } }
  }
  method look { waituntil (true) { } }
}
";

/// A file of few states for the longest trace: signals and broadcasts, guards that
/// two regions share, methods of one and of two regions.
const LONGEST: &str = "monitor longest {
  var items = 0 in 0..3;
  var turn = 0 in 0..3;
  var busy = 0 in 0..1;
  keep true;
  method put { waituntil (items < 3) { items := items + 1; } }
  method get { waituntil (items > 0) { items := items - 1; } }
  method fill { waituntil (items < 2) { items := items + 2; } }
  method even { waituntil (turn == 0) { turn := 1; } waituntil (turn == 2) { turn := 3; } }
  method odd { waituntil (turn == 1) { turn := 2; } waituntil (items > 0) { items := items - 1; } }
  method start { waituntil (busy == 0) { busy := 1; } }
  method stop { waituntil (busy == 1) { busy := 0; } }
  method tick {
    waituntil (true) { if (turn < 3) { turn := turn + 1; } else { turn := 0; } }
  }
}
";

/// Two guards, each asked at three regions. A thread that puts and wants to put again is due and
/// waits, at the back; so does one that gets.
const QUEUE: &str = "monitor queue {
  var full = 0 in 0..1;
  keep true;
  method put { waituntil (full == 0) { full := 1; } }
  method get { waituntil (full == 1) { full := 0; } }
  method refill { waituntil (full == 0) { full := 1; } waituntil (full == 0) { full := 1; } }
  method drain { waituntil (full == 1) { full := 0; } waituntil (full == 1) { full := 0; } }
}
";

/// How often a frame is put to the draw.
type Weight = fn(&Checked, &Run, Frame) -> usize;

/// Frames that both machines take, drawn so that many threads wait.
fn trace(checked: &Checked, count: usize, weight: Weight) -> String {
    let machines = Machines::new(checked, &place(checked).entries);
    let mut plain = machines.start();
    let mut table = machines.start();
    let mut draws = Draws(1);
    let mut trace = String::new();
    for _ in 0..count {
        let mut frames = Vec::new();
        for frame in all_frames(checked) {
            let taken = machines.step(&mut plain.clone(), frame, Machine::Plain).is_ok()
                && machines.step(&mut table.clone(), frame, Machine::Table).is_ok();
            if taken {
                frames.extend((0..weight(checked, &plain, frame)).map(|_| frame));
            }
        }
        let frame = frames[draws.next() % frames.len()];
        machines.step(&mut plain, frame, Machine::Plain).expect("an allowed frame");
        machines.step(&mut table, frame, Machine::Table).expect("an allowed frame");
        let flag = u8::from(frame.flag);
        trace += &format!("{:02X}{:02X}{:02X}\n", frame.thread, frame.region, flag);
    }
    trace
}

fn all_frames(checked: &Checked) -> impl Iterator<Item = Frame> {
    let regions = checked.monitor.regions.len() as u8;
    let pairs = (0..THREADS as u8).flat_map(move |t| (0..regions).map(move |r| (t, r)));
    pairs.flat_map(|(thread, region)| [false, true].map(|flag| Frame { thread, region, flag }))
}

/// While only two threads are idle, these run methods of one region alone, so that
/// someone can always move.
fn crowding(checked: &Checked, run: &Run, frame: Frame) -> usize {
    let idle = run.places.iter().filter(|place| **place == Place::Idle).count();
    let is_last = checked.monitor.regions[usize::from(frame.region)].is_last;
    match (run.places[usize::from(frame.thread)], frame.flag) {
        (Place::Due(_), _) => 1,
        (Place::Waiting(_), false) => 2,
        (Place::Waiting(_), true) => 16,
        (Place::Idle, true) if idle > 2 || is_last => 1,
        (Place::Idle, false) if idle > 2 => 4,
        (Place::Idle, _) => 0,
    }
}

/// An idle thread seldom runs at once, and waits where no more wait than elsewhere: most
/// frames begin to wait or resume. Two threads stay idle, so that someone can always move.
fn queueing(checked: &Checked, run: &Run, frame: Frame) -> usize {
    let regions = &checked.monitor.regions;
    let region = &regions[usize::from(frame.region)];
    let waits = |place: &&Place| matches!(place, Place::Waiting(_));
    let waits_here = |place: &&Place| match place {
        Place::Waiting(at) => regions[usize::from(*at)].guard == region.guard,
        _ => false,
    };
    let [all, here] =
        [run.places.iter().filter(waits).count(), run.places.iter().filter(waits_here).count()];
    match (run.places[usize::from(frame.thread)], frame.flag) {
        (Place::Due(_), _) => 1,
        (Place::Waiting(_), false) => 1,
        (Place::Waiting(_), true) => 64,
        (Place::Idle, true) if region.is_last => 1,
        (Place::Idle, false) if all < THREADS - 2 && 2 * here <= all => 16,
        (Place::Idle, _) => 0,
    }
}

/// Numbers by a linear congruence, of each the upper sixteen bits.
struct Draws(u32);

impl Draws {
    fn next(&mut self) -> usize {
        self.0 = self.0.wrapping_mul(1_664_525).wrapping_add(1_013_904_223);
        (self.0 >> 16) as usize
    }
}
