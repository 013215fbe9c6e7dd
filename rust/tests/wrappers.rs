//! The wrappers against the examples' tables and lines, and on any bytes.
use damsonyet::{Fate, Machine, Outcome, Place, Reason, Refusal};
use std::fs;
use std::path::{Path, PathBuf};

/// The archive's own calls, for lent buffers.
#[allow(dead_code)]
#[path = "../src/ffi.rs"]
mod ffi;

fn root() -> PathBuf {
    Path::new(env!("CARGO_MANIFEST_DIR")).join("../examples")
}

fn examples() -> Vec<PathBuf> {
    let root = root();
    let mut folders = Vec::new();
    for folder in [root.clone(), root.join("refusals")] {
        folders.extend(fs::read_dir(folder).expect("a folder").map(|entry| entry.expect("an entry").path()));
    }
    folders.retain(|folder| folder.join("monitor.txt").is_file());
    folders.sort();
    assert!(folders.len() > 30);
    folders
}

fn read(path: &Path) -> Vec<u8> {
    fs::read(path).unwrap_or_default()
}

/// A thread with the stack that a call may need, and some more for the test.
fn with_stack(test: impl FnOnce() + Send + 'static) {
    let thread = std::thread::Builder::new().stack_size(4 * damsonyet::STACK).spawn(test).expect("a thread");
    thread.join().expect("the test");
}

fn refusal_line(refusal: &Refusal) -> String {
    format!("{:02X}{:04X}{:04X}\n", refusal.number, refusal.first, refusal.second)
}

fn record_line(run: &Result<damsonyet::Record, Refusal>) -> String {
    match run {
        Ok(record) => {
            let values: String = record.values.iter().map(|value| format!("{:02X}", value + 128)).collect();
            let places: String = record.places.iter().map(|place| format!("{:02X}", place.byte())).collect();
            format!("00{values}{places}\n")
        }
        Err(refusal) => refusal_line(refusal),
    }
}

/// What placer and runner print, made from what the calls return.
fn lines(file: &[u8], trace: &[u8]) -> (String, String) {
    let placer = match damsonyet::place(file) {
        Ok(table) => {
            let entry =
                |e: &damsonyet::Entry| format!("{:02X}{:02X}{:02X}{:02X}\n", e.region, e.guard, e.unconditional as u8, e.broadcast as u8);
            let entries: String = table.entries.iter().map(entry).collect();
            assert_eq!(table.text, entries.as_bytes());
            entries
        }
        Err(refusal) => refusal_line(&refusal),
    };
    let runner = match damsonyet::run_both_from_start(file, trace) {
        Ok(both) => record_line(&both.plain) + &record_line(&both.table),
        Err(refusal) => refusal_line(&refusal),
    };
    (placer, runner)
}

#[test]
fn examples_have_their_tables_and_lines() {
    with_stack(|| {
        for folder in examples() {
            let name = folder.display();
            for (monitor, trace, table, told) in [
                ("monitor.txt", "trace.txt", "table.txt", "lines.txt"),
                ("monitor.txt", "trace-plain-only.txt", "table.txt", "lines-plain-only.txt"),
                ("monitor.txt", "trace-recheck.txt", "table.txt", "lines-recheck.txt"),
                ("monitor.txt", "trace-arrival.txt", "table.txt", "lines-arrival.txt"),
                ("monitor.txt", "trace-by-number.txt", "table.txt", "lines-by-number.txt"),
                ("monitor.txt", "trace-load.txt", "table.txt", "lines-load.txt"),
                ("monitor-kept.txt", "", "table-kept.txt", ""),
                ("monitor-tried.txt", "", "table-tried.txt", ""),
                ("monitor-without.txt", "", "table-without.txt", ""),
                ("monitor-published.txt", "", "table-published.txt", ""),
            ] {
                if !folder.join(monitor).is_file() || !folder.join(table).is_file() {
                    continue;
                }
                let file = read(&folder.join(monitor));
                let trace = if trace.is_empty() { Vec::new() } else { read(&folder.join(trace)) };
                let (placer, runner) = lines(&file, &trace);
                assert_eq!(placer.as_bytes(), read(&folder.join(table)), "{name}");
                assert_eq!(placer.as_bytes(), damsonyet::placer_lines(&file), "{name}");
                assert_eq!(runner.as_bytes(), damsonyet::runner_lines(&file, &trace), "{name}");
                if !told.is_empty() && folder.join(told).is_file() {
                    assert_eq!(runner.as_bytes(), read(&folder.join(told)), "{name} {told}");
                }
            }
        }
    });
}

/// All calls on one input, and what they must have in common.
fn agree(file: &[u8], trace: &[u8], start: usize) {
    let verdict = damsonyet::check(file);
    assert_eq!(damsonyet::place(file).map(|_| ()), verdict);
    let outlined = damsonyet::outline(file);
    match &outlined {
        Ok((_, told)) => assert_eq!(*told, verdict),
        Err(refusal) => assert_eq!(Err(*refusal), verdict),
    }
    if let Err(refusal) = verdict {
        assert!(refusal.of_file() && !matches!(refusal.reason(), Reason::Unknown { .. }));
        assert_eq!(damsonyet::run(file, trace, start, Machine::Plain), Err(refusal));
        assert_eq!(damsonyet::run_both(file, trace, start), Err(refusal));
        assert_eq!(damsonyet::points(file, trace, start), Err(refusal));
        assert_eq!(damsonyet::start_state(file), 0);
        assert!(!refusal.to_string().is_empty());
    }
    let (_, runner) = lines(file, trace);
    if trace.len() <= 65_536 {
        assert_eq!(runner.as_bytes(), damsonyet::runner_lines(file, trace));
    }
    tries_agree(file, &verdict, &outlined);
    loads_agree(file, &verdict, trace.len() as u32);
    let Ok((outline, told)) = outlined else { return };
    assert!(outline.start < outline.states && outline.states <= 4096);
    let start_values: Vec<i16> = outline.variables.iter().map(|variable| variable.start).collect();
    assert_eq!(damsonyet::number_of(file, &start_values), Ok(Some(outline.start)));
    assert_eq!(damsonyet::number_of(file, &start_values[1..]), Ok(None));
    assert_eq!(
        outline.methods.iter().flat_map(|method| method.regions.clone()).collect::<Vec<_>>(),
        (0..outline.regions.len()).collect::<Vec<_>>()
    );
    for (k, region) in outline.regions.iter().enumerate() {
        assert!(region.guard.end < region.body.start && region.body.end < file.len());
        assert_eq!((file[region.guard.end], file[region.body.start - 1], file[region.body.end]), (b')', b'{', b'}'));
        assert!(usize::from(region.guard_number) < outline.guards);
        assert!(outline.first_with(region.guard_number.into()).is_some_and(|first| first <= k));
    }
    if told.is_err() {
        return;
    }
    let table = damsonyet::place(file).expect("an accepted file");
    let pairs = usize::from(table.pairs);
    assert!(table.entries.len() <= pairs && pairs <= outline.regions.len() * outline.guards, "{pairs}");
    for number in [0, outline.start, outline.states - 1, outline.states, usize::MAX] {
        let state = damsonyet::state_at(file, number).expect("of an accepted file");
        assert_eq!(state.is_some(), number < outline.states);
        if let Some(state) = state {
            assert_eq!(damsonyet::number_of(file, &state.values), Ok(Some(number)));
            for (r, after) in state.after.iter().enumerate() {
                let runs = r < outline.regions.len() && state.kept && state.holds >> outline.regions[r].guard_number & 1 == 1;
                assert_eq!(after.is_some(), runs);
                assert!(!matches!(after, Some(Outcome::Faults)), "an accepted file");
            }
        }
    }
    assert_eq!(damsonyet::start_state(file), outline.start);
    let both = damsonyet::run_both(file, trace, start).expect("an accepted file");
    assert_eq!(damsonyet::run(file, trace, start, Machine::Plain), both.plain);
    assert_eq!(damsonyet::run(file, trace, start, Machine::Table), both.table);
    match damsonyet::points(file, trace, start) {
        Err(refusal) => assert_eq!((Err(refusal), Err(refusal)), (both.plain.clone(), both.table.clone())),
        Ok(points) => {
            assert_eq!(points.plain, both.plain.clone().map(|_| ()));
            assert_eq!(points.table, both.table.clone().map(|_| ()));
            let frames = trace.len() / 7;
            assert_eq!(points.points.len(), points.plain.map_or_else(|refusal| refusal.first, |()| frames) + 1);
            assert_eq!(points.points[0].places, [Place::Idle; 16]);
            let last = points.points.last().expect("a point");
            if let Ok(record) = &both.plain {
                assert_eq!(record.places, last.places);
                assert_eq!(record.turns, last.turns);
                assert_eq!(record.values, last.values[..record.values.len()]);
                assert_eq!(record.notified, damsonyet::members(last.plain.notified));
            }
            if let Ok(record) = &both.table {
                assert_eq!((record.places, record.turns), (last.places, last.turns));
                assert_eq!(record.notified, damsonyet::members(last.table.expect("to the end").notified));
            }
            turns_agree(&outline, &points.points);
        }
    }
}

/// The turns beside the places, from point to point: who begins to wait comes to the back, who goes on was the first in line on its guard, and
/// who rechecks stays where it is. On a guard that holds, the first in line is notified in both machines.
fn turns_agree(outline: &damsonyet::Outline, points: &[damsonyet::Point]) {
    let waits = |place: Place| matches!(place, Place::Waiting(_));
    let mut queue: Vec<u8> = Vec::new();
    for (k, point) in points.iter().enumerate() {
        for thread in 0..16 {
            let before = k.checked_sub(1).map_or(Place::Idle, |k| points[k].places[usize::from(thread)]);
            match (before, point.places[usize::from(thread)]) {
                (Place::Waiting(region), now) if !waits(now) => {
                    let guard = outline.guard_of(region.into()).expect("a guard");
                    assert_eq!(points[k - 1].line(outline, guard).first(), Some(&thread));
                    queue.retain(|&other| other != thread);
                }
                (before, now) if !waits(before) && waits(now) => queue.push(thread),
                _ => {}
            }
        }
        assert_eq!(point.queue(), queue);
        for thread in 0..=16 {
            let turn = queue.iter().position(|&other| other == thread).map(|turn| turn as u8);
            assert_eq!(point.turn(thread), turn);
            assert_eq!(point.turns.get(usize::from(thread)).copied().unwrap_or(0), turn.unwrap_or(0));
        }
        let lines: Vec<Vec<u8>> = (0..outline.guards).map(|guard| point.line(outline, guard)).collect();
        assert_eq!(lines.iter().map(Vec::len).sum::<usize>(), queue.len());
        for (guard, line) in lines.iter().enumerate() {
            assert!(line.windows(2).all(|two| point.turn(two[0]) < point.turn(two[1])));
            if let Some(first) = line.first().filter(|_| point.guards >> guard & 1 == 1) {
                assert!(point.plain.notified >> first & 1 == 1 && point.table.is_none_or(|table| table.notified >> first & 1 == 1));
            }
        }
    }
}

/// The fates beside the verdict, the outline, the chosen tries and the states.
fn tries_agree(file: &[u8], verdict: &Result<(), Refusal>, outlined: &Result<(damsonyet::Outline, Result<(), Refusal>), Refusal>) {
    let fates = match damsonyet::fates(file) {
        Ok(fates) => fates,
        Err(refusal) => {
            assert_eq!(Err(refusal), *verdict);
            assert!(matches!(refusal.number, 1..=8 | 15));
            return;
        }
    };
    assert!(verdict.is_ok() || verdict.is_err_and(|refusal| refusal.number == 9));
    let (outline, _) = outlined.as_ref().expect("an outline");
    assert_eq!(fates.len(), outline.tries.len());
    let mut from = outline.keep.end;
    for tried in &outline.tries {
        assert_eq!(file[from], b';');
        assert!(file[from + 1..tried.start].trim_ascii() == b"try");
        from = tried.end;
    }
    assert_eq!(file[from], b';');
    if let Ok(table) = damsonyet::place(file) {
        let chosen: Vec<u8> = (0..16).filter(|&i| fates.get(usize::from(i)) == Some(&Fate::Chosen)).collect();
        assert_eq!(damsonyet::members(table.chosen), chosen);
    }
    let mut passes: Vec<u8> = Vec::new();
    for fate in &fates {
        if let &Fate::Broken { pass, region, state } = fate {
            let from = damsonyet::state_at(file, state.into()).expect("told").expect("a state");
            assert!(from.kept && usize::from(region) < outline.regions.len());
            assert!(matches!(from.after[usize::from(region)], Some(Outcome::Ends(_))));
            passes.push(pass);
        }
    }
    // Every pass but the last drops something.
    let last = passes.iter().copied().max().unwrap_or(0);
    assert!((1..=last).all(|pass| passes.contains(&pass)), "{fates:?}");
}

/// A load beside the verdict: both machines accept it, and it ends short only where all its threads wait.
fn loads_agree(file: &[u8], verdict: &Result<(), Refusal>, seed: u32) {
    let (threads, wanted) = (seed as usize % 16 + 1, 9);
    for threads in [0, 17] {
        assert_eq!(damsonyet::load(file, seed, threads, wanted), Err(Refusal { number: 16, first: 0, second: 0 }));
    }
    let made = damsonyet::load(file, seed, threads, wanted);
    assert_eq!(made.as_ref().map(|_| ()), verdict.as_ref().map(|_| ()));
    let Ok(load) = made else { return };
    assert!(load.frames <= wanted && load.trace.len() == 7 * load.frames);
    let both = damsonyet::run_both_from_start(file, &load.trace).expect("an accepted file");
    let (plain, table) = (both.plain.expect("accepted"), both.table.expect("accepted"));
    assert!(plain.places[threads..].iter().all(|place| *place == Place::Idle));
    let all_wait = plain.places[..threads].iter().all(|place| matches!(place, Place::Waiting(_)));
    assert!(load.frames == wanted || all_wait);
    assert_eq!((plain.places, plain.turns, plain.values), (table.places, table.turns, table.values));
}

/// A plain generator, the same in every run.
struct Draw(u64);

impl Draw {
    fn below(&mut self, n: usize) -> usize {
        self.0 = self.0.wrapping_mul(6364136223846793005).wrapping_add(1442695040888963407);
        (self.0 >> 33) as usize % n.max(1)
    }
}

/// Frames that are often taken, by few threads.
fn drawn_trace(draw: &mut Draw, n: usize) -> Vec<u8> {
    let line = |draw: &mut Draw| format!("{:02X}{:02X}{:02X}\n", draw.below(3), draw.below(3), draw.below(2));
    (0..n).map(|_| line(draw)).collect::<String>().into_bytes()
}

#[test]
fn calls_agree_on_any_bytes() {
    with_stack(|| {
        let mut draw = Draw(31);
        agree(b"", b"", 0);
        agree(&vec![b' '; 8192], b"", 0);
        agree(&vec![b' '; 8193], b"", 0);
        for folder in examples() {
            let file = read(&folder.join("monitor.txt"));
            let trace = read(&folder.join("trace.txt"));
            let start = damsonyet::start_state(&file);
            agree(&file, &trace, start);
            agree(&file, &trace, usize::MAX);
            agree(&file, &file, start);
            for _ in 0..20 {
                let number = draw.below(300);
                let frames = draw.below(12);
                agree(&file, &drawn_trace(&mut draw, frames), number);
                let mut bytes = file.clone();
                let at = draw.below(bytes.len());
                bytes[at] = draw.below(256) as u8;
                agree(&bytes, &trace, start);
            }
        }
        for _ in 0..300 {
            let n = draw.below(200);
            let bytes: Vec<u8> = (0..n).map(|_| draw.below(256) as u8).collect();
            agree(&bytes, &bytes, draw.below(9));
        }
    });
}

/// Runs of many frames: each is drawn, and kept where the plain machine takes it.
#[test]
fn long_runs_agree() {
    with_stack(|| {
        let mut draw = Draw(5);
        let mut frames = 0;
        for folder in examples().iter().filter(|folder| folder.join("README.md").is_file()) {
            let file = read(&folder.join("monitor.txt"));
            let start = damsonyet::start_state(&file);
            let regions = damsonyet::outline(&file).expect("an outline").0.regions.len();
            let mut trace = Vec::new();
            for _ in 0..300 {
                let frame = format!("{:02X}{:02X}{:02X}\n", draw.below(16), draw.below(regions), draw.below(2));
                let longer = [&trace[..], frame.as_bytes()].concat();
                if damsonyet::run(&file, &longer, start, Machine::Plain).is_ok() {
                    trace = longer;
                }
            }
            agree(&file, &trace, start);
            frames += trace.len() / 7;
        }
        assert!(frames > 200, "{frames}");
    });
}

/// A fault and a broken kept condition are told of a file that is refused with 9.
#[test]
fn states_of_a_file_refused_with_9() {
    with_stack(|| {
        let at = |name: &str| read(&root().join("refusals").join(name).join("monitor.txt"));
        for (name, faults) in [
            ("9-midway", true),
            ("9-late-closed", false),
            ("9-not-reached", true),
            ("9-mod-binds", true),
            ("9-no-remainder", true),
            ("9-late-by-size", false),
        ] {
            let file = at(name);
            let Err(refusal) = damsonyet::check(&file) else { panic!("{name} is accepted") };
            let Reason::Breaks { region, state } = refusal.reason() else { panic!("{name}: {refusal}") };
            let from = damsonyet::state_at(&file, state).expect("told").expect("a state");
            assert!(from.kept);
            match from.after[region].expect("it runs") {
                Outcome::Faults => assert!(faults, "{name}"),
                Outcome::Ends(next) => {
                    assert!(!faults, "{name}");
                    assert!(!damsonyet::state_at(&file, next.into()).expect("told").expect("a state").kept);
                }
            }
        }
    });
}

/// A remainder's value, of negative numbers too; it binds closer than + and -.
#[test]
fn values_of_remainders() {
    with_stack(|| {
        let assigned = |expression: &str, x: i16, n: i16| {
            let file = format!(
                "monitor m {{ var x = {x} in -9..9; var n = {n} in 1..4; var y = 0 in -20..20; keep true; \
                 method a {{ waituntil (true) {{ y := {expression}; }} }} }}"
            );
            let record = damsonyet::run(file.as_bytes(), b"000001\n", damsonyet::start_state(file.as_bytes()), Machine::Plain);
            record.expect(expression).values[2]
        };
        for x in -9..=9 {
            for n in 1..=4 {
                assert_eq!(assigned("x mod n", x, n), x.rem_euclid(n));
                assert_eq!(assigned("1 + x mod n - n", x, n), 1 + x.rem_euclid(n) - n);
                assert_eq!(assigned("1 - 7 mod n", x, n), 1 - 7 % n);
            }
        }
        for (expression, value) in [("-7 mod 3", 2), ("1 - -7 mod 3", -1), ("1 - 7 mod 3", 0), ("1 -7 mod 003", 0), ("999 mod 7", 5)] {
            assert_eq!(assigned(expression, 0, 1), value, "{expression}");
        }
    });
}

/// 15 comes behind 7 and before 8, at the first `mod` of keep, the tries and the guards that may have no value; nothing else is told then.
#[test]
fn remainders_without_a_value() {
    with_stack(|| {
        let file = |low: i16, keep: &str, guard: &str, body: &str| {
            format!("monitor m {{ var n = 1 in {low}..3; keep {keep}; method a {{ waituntil ({guard}) {{ {body} }} }} }}").into_bytes()
        };
        let at = |file: &[u8], n: usize| file.windows(3).enumerate().filter(|(_, three)| three == b"mod").nth(n).expect("a mod").0;
        for (low, keep, guard, body, nth) in [
            (0, "6 mod n == 0", "true", "", 0),
            (0, "6 mod 3 == 0", "6 mod n == 0", "", 1),
            (0, "n > 0", "n > 0 && 6 mod n == 0", "", 0),
            (-3, "true || 6 mod n == 0", "true", "", 0),
            (1, "true", "n mod 0 == 0 || true", "", 0),
            (1, "n mod -1 == 0", "true", "", 0),
            (0, "false", "6 mod n == 0", "", 0),
            (0, "true; try false; try 6 mod 2 != 6 mod n", "true", "", 1),
            (0, "true; try false", "6 mod 2 == 6 mod n", "n := n mod 0;", 1),
        ] {
            let file = file(low, keep, guard, body);
            let refusal = Refusal { number: 15, first: at(&file, nth), second: 0 };
            let shown = String::from_utf8_lossy(&file);
            assert_eq!(damsonyet::check(&file), Err(refusal), "{shown}");
            assert_eq!(refusal.reason(), Reason::Remainder { byte: refusal.first });
            assert!(refusal.of_file());
            assert_eq!(damsonyet::place(&file), Err(refusal), "{shown}");
            assert_eq!(damsonyet::run_both(&file, b"x", 0), Err(refusal), "{shown}");
            assert_eq!(damsonyet::points(&file, b"x", 0), Err(refusal), "{shown}");
            assert_eq!(damsonyet::outline(&file), Err(refusal), "{shown}");
            assert_eq!(damsonyet::fates(&file), Err(refusal), "{shown}");
            assert_eq!(damsonyet::state_at(&file, 0), Err(refusal), "{shown}");
            assert_eq!(damsonyet::number_of(&file, &[1]), Err(refusal), "{shown}");
            assert_eq!(damsonyet::start_state(&file), 0);
            assert_eq!(damsonyet::placer_lines(&file), refusal_line(&refusal).as_bytes());
            assert_eq!(damsonyet::runner_lines(&file, b"x"), refusal_line(&refusal).as_bytes());
        }
        // With a range that begins at 1 all of them pass.
        assert_eq!(damsonyet::check(&file(1, "n > 0 && 6 mod n == 0", "6 mod n == 0 || true", "")), Ok(()));
        // 7 comes before it, 8 behind it.
        assert_eq!(damsonyet::check(&file(4, "6 mod 0 == 0", "true", "")).map_err(|refusal| refusal.number), Err(7));
        assert_eq!(damsonyet::check(&file(1, "6 mod n == 1", "true", "")).map_err(|refusal| refusal.number), Err(8));
        // In a body it is a fault, on either side of && and ||. From there the body binds no try, not even one that it has made false before.
        for body in [
            "n := 6 mod n;",
            "if (n == 0 || 6 mod n == 0) { n := 1; }",
            "if (n > 0 && 6 mod n == 0) { }",
            "if (n == 0) { n := 1 mod -2; }",
            "if (n == 0) { n := 2; n := n mod 0; }",
        ] {
            let file = file(0, "true; try n < 2", "true", body);
            assert_eq!(damsonyet::check(&file), Err(Refusal { number: 9, first: 0, second: 0 }), "{body}");
            assert_eq!(damsonyet::state_at(&file, 0).expect("told").expect("a state").after[0], Some(Outcome::Faults), "{body}");
            assert_eq!(damsonyet::fates(&file), Ok(vec![Fate::Chosen]), "{body}");
        }
        assert_eq!(damsonyet::check(&file(0, "true", "n > 0", "if (n > 0) { n := 6 mod n; } else { n := 1 mod 0; }")), Ok(()));
    });
}

/// The example of document 02: with x < 2 kept the table is shorter; and a guess that holds only beside another falls with it.
#[test]
fn guesses_shorten_a_table() {
    with_stack(|| {
        let placed = |tries: &str| {
            let file = format!(
                "monitor m {{ var x = 0 in 0..3; keep true; {tries}
                method a {{ waituntil (x == 3) {{ }} }} method b {{ waituntil (true) {{ if (x == 2) {{ x := 3; }} }} }} }}"
            );
            let fates = damsonyet::fates(file.as_bytes()).expect("an accepted file");
            (damsonyet::place(file.as_bytes()).expect("an accepted file"), fates)
        };
        let (table, fates) = placed("");
        assert_eq!((&table.text[..], table.chosen, fates), (&b"01000001\n"[..], 0, vec![]));
        let (table, fates) = placed("try x < 2;");
        assert_eq!((&table.text[..], table.chosen, fates), (&b""[..], 1, vec![Fate::Chosen]));
        // x > 0 is false at the start; x != 3 is broken from x 2, which is kept where x < 2 is not chosen.
        let (table, fates) = placed("try x > 0; try x != 3;");
        let broken = Fate::Broken { pass: 1, region: 1, state: 2 };
        assert_eq!((&table.text[..], table.chosen, fates), (&b"01000001\n"[..], 0, vec![Fate::FalseAtStart, broken]));
        let (table, fates) = placed("try x > 0; try x != 3; try x < 2;");
        assert_eq!((&table.text[..], table.chosen), (&b""[..], 6));
        assert_eq!(fates, [Fate::FalseAtStart, Fate::Chosen, Fate::Chosen]);
    });
}

/// Tries past sixteen, and in wrong places.
#[test]
fn tries_that_are_refused() {
    with_stack(|| {
        let file = |tries: &str, behind: &str| {
            format!("monitor m {{ var x = 0 in 0..1; keep true; {tries} method a {{ waituntil (true) {{ }} }} {behind} }}").into_bytes()
        };
        let refused = |file: &[u8]| damsonyet::fates(file).map(|_| ()).map_err(|refusal| (refusal.number, refusal.first));
        let sixteen = "try x < 2;".repeat(16);
        assert_eq!(damsonyet::place(&file(&sixteen, "")).expect("accepted").chosen, 0xFFFF);
        assert_eq!(refused(&file(&(sixteen.clone() + "try true;"), "")), Err((5, 42 + 160)));
        let behind = file("", "try true;");
        let at = behind.windows(3).position(|word| word == b"try").expect("a try");
        assert_eq!(refused(&behind), Err((4, at)));
        assert_eq!(refused(&file("try y == 0;", "")), Err((6, 46)));
        assert!(damsonyet::outline(&file("try y == 0;", "")).is_err());
    });
}

/// The turns and lines of examples/queue, as its README tells them, and of document 01's example 4.
#[test]
fn turns_of_the_examples() {
    with_stack(|| {
        let file = read(&root().join("queue/monitor.txt"));
        let (outline, start) = (damsonyet::outline(&file).expect("an outline").0, damsonyet::start_state(&file));
        let lines = |trace: &str| -> Vec<Vec<u8>> {
            let points = damsonyet::points(&file, &read(&root().join("queue").join(trace)), start).expect("points").points;
            assert!(points.iter().all(|point| point.line(&outline, 1).is_empty() && point.queue() == point.line(&outline, 0)));
            points.iter().map(|point| point.line(&outline, 0)).collect()
        };
        let by_hand: [&[u8]; 12] = [&[], &[], &[5], &[5, 0], &[5, 0], &[0], &[0, 1], &[0, 1], &[1], &[1, 5], &[1, 5], &[5]];
        assert_eq!(lines("trace.txt"), by_hand);
        assert_eq!(lines("trace-by-number.txt"), by_hand[..5]);
        let by_hand: [&[u8]; 11] = [&[], &[], &[5], &[5, 0], &[5, 0], &[5, 0], &[5, 0], &[5, 0], &[0], &[0], &[]];
        assert_eq!(lines("trace-recheck.txt"), by_hand);
        let (file, trace) = (read(&root().join("box/monitor.txt")), read(&root().join("box/trace-arrival.txt")));
        for machine in [Machine::Plain, Machine::Table] {
            let record = damsonyet::run(&file, &trace, 0, machine).expect("accepted");
            assert_eq!((record.values, record.places[0], record.turns), (vec![0], Place::Waiting(1), [0; 16]));
            let record = damsonyet::run(&file, &trace[..14], 0, machine).expect("accepted");
            assert_eq!((record.queue(), record.turn(0), record.turn(1), record.turn(2)), (vec![1, 0], Some(1), Some(0), None));
        }
        // Beside a refusal all turns are 0.
        let (trace, start) = (read(&root().join("refusals/14-not-first/trace.txt")), 0);
        let both = unsafe { ffi::damsonyet_run_both(file.as_ptr(), file.len(), trace.as_ptr(), trace.len(), start) };
        assert_eq!((both.plain.answer.number, both.plain.turns, both.table.turns), (14, [0; 16], [0; 16]));
    });
}

/// Touched pairs of the examples, each counted by hand: for each region, the guards that name a variable which its body assigns.
#[test]
fn pairs_of_the_examples() {
    with_stack(|| {
        for (name, pairs) in [
            ("barrier/monitor.txt", 2 + 2),
            ("bounded-buffer/monitor.txt", 3 + 3 + 3),
            ("box/monitor.txt", 2 + 2),
            ("breaker/monitor.txt", 3 + 3 + 3 + 3 + 1),
            ("breaker-guesses/monitor.txt", 4 + 4 + 4 + 3 + 2 + 1),
            ("breaker-guesses/monitor-without.txt", 4 + 4 + 4 + 3 + 2 + 1),
            ("queue/monitor.txt", 1 + 1 + 1),
            ("readers-limit/monitor.txt", 2 + 2 + 2 + 2),
            ("readers-writers/monitor.txt", 1 + 1 + 2 + 2),
            ("readers-writers/monitor-published.txt", 1 + 1 + 2 + 2),
            ("refusals/9-not-reached/monitor-kept.txt", 2 + 2),
            ("refusals/9-not-reached/monitor-tried.txt", 2 + 2),
            ("round-robin/monitor.txt", 3 + 3 + 3),
            ("ticketed-readers-writers/monitor.txt", 4 + 8 + 4 + 8 + 4 + 8 + 5 + 5),
            ("wide-bay/monitor.txt", 5 + 3 + 4 + 2 + 2 + 1 + 2 + 2 + 1),
        ] {
            let file = read(&root().join(name));
            assert_eq!(damsonyet::place(&file).expect("an accepted file").pairs, pairs, "{name}");
        }
    });
}

/// What touches is the text: a left side anywhere in a body, and a name anywhere in a guard.
#[test]
fn pairs_by_the_text() {
    with_stack(|| {
        let pairs = |keep: &str, regions: &[&str]| {
            let region = |(k, region): (usize, &&str)| format!("method m{k} {{ waituntil {region} }}\n");
            let regions: String = regions.iter().enumerate().map(region).collect();
            let variables = "var x = 0 in 0..3; var y = 0 in 0..3; var x1 = 0 in 0..3;";
            let file = format!("monitor m {{ {variables} keep {keep}; {regions} }}");
            damsonyet::place(file.as_bytes()).unwrap_or_else(|refusal| panic!("{file}: {refusal}")).pairs
        };
        let waits = "(x == 3) { }";
        // Nothing is assigned; nothing is named; what is read is not assigned.
        assert_eq!(pairs("true", &[waits, "(y == 1) { if (x == 0) { } else { } }"]), 0);
        assert_eq!(pairs("true", &["(true) { x := 0; }", "(1 < 2 || false) { y := 0; }"]), 0);
        assert_eq!(pairs("true", &[waits, "(true) { y := x; if (x == 3) { y := x - x; } }"]), 0);
        // A region's own guard counts.
        assert_eq!(pairs("true", &["(x < 3) { x := x + 1; }"]), 1);
        // Wherever the assignment stands, reached or not, and however often.
        assert_eq!(pairs("true", &[waits, "(true) { x := 0; x := 1; x := 2; }"]), 1);
        assert_eq!(pairs("true", &[waits, "(true) { if (y == 0) { } else { x := 0; } }"]), 1);
        assert_eq!(pairs("true", &[waits, "(true) { if (true) { if (y == 1) { if (y == 2) { x := 0; } } } }"]), 1);
        assert_eq!(pairs("true", &[waits, "(true) { if (false) { x := 9; } }"]), 1);
        assert_eq!(pairs("true", &[waits, "(false) { x := 9; }"]), 1);
        assert_eq!(pairs("true", &[waits, "(true) { x := x; }"]), 1);
        // Wherever the name stands.
        let sets = "(true) { x := 0; }";
        for guard in ["!(y == 0 && (1 == 1 || x < 2))", "y - 1 + x > 0", "0 == x", "x == x", "true || x == 0", "!!!(x != 0)"] {
            assert_eq!(pairs("true", &[&format!("({guard}) {{ }}"), sets]), 1, "{guard}");
        }
        // Another name is another variable, if it only begins so; and no other condition is a guard.
        assert_eq!(pairs("x == x", &["(x1 == 0 && y == 0) { }", "(true) { if (x == 0) { x := 1; } }"]), 0);
        // One guard at several regions is one, with as many pairs as there are regions that touch it; two variables make no second pair.
        assert_eq!(pairs("true", &["(x == 1) { x := 0; }", "( x==001 ) { }", "(1 == x) { x := 2; }"]), 2 + 2);
        assert_eq!(pairs("true", &["(x == y) { x := 0; y := 0; }"]), 1);
        // As many as there may be.
        let regions: String = (0..16).map(|k| format!("waituntil (x < {k}) {{ x := 0; }}")).collect();
        let file = format!("monitor m {{ var x = 0 in 0..1; keep true; method a {{ {regions} }} }}");
        assert_eq!(damsonyet::place(file.as_bytes()).expect("an accepted file").pairs, 256);
    });
}

/// Beside a refusal of the file, and beside 10, there is no length, no try is chosen and no pair counted.
#[test]
fn no_pairs_beside_a_refusal() {
    with_stack(|| {
        let mut buffer = vec![0xA5; ffi::OUTPUT_BYTES];
        let mut place = |file: &[u8], room: usize| {
            let placing = unsafe { ffi::damsonyet_place(file.as_ptr(), file.len(), buffer.as_mut_ptr(), room) };
            (placing.answer.number, placing.length, placing.chosen, placing.pairs)
        };
        let mut refused = [0; 16];
        for folder in examples() {
            let file = read(&folder.join("monitor.txt"));
            let number = damsonyet::check(&file).map_or_else(|refusal| refusal.number, |()| 0);
            if number != 0 {
                assert_eq!(place(&file, ffi::OUTPUT_BYTES), (number, 0, 0, 0), "{}", folder.display());
            }
            refused[usize::from(number)] += 1;
        }
        assert!((0..=9).chain([15]).all(|number| refused[number] > 0), "{refused:?}");
        let guesses = read(&root().join("breaker-guesses/monitor.txt"));
        assert_eq!(place(&guesses, 45), (0, 45, 0b1111, 18));
        for room in [0, 1, 9, 44] {
            assert_eq!(place(&guesses, room), (10, 0, 0, 0));
        }
        // An empty table fits any buffer: its count is told.
        let empty = b"monitor m { var x = 0 in 0..1; keep true; method a { waituntil (x == 0) { x := 1; } } }";
        assert_eq!(place(empty, 0), (0, 0, 0, 1));
    });
}

/// A load by its words alone: every frame of the threads is tried on the plain machine, rechecks are left out, and of those that it takes, in
/// order of thread and region, one is drawn.
fn made_by_trying(file: &[u8], seed: u32, threads: u8, wanted: usize) -> Vec<u8> {
    let (start, regions) = (damsonyet::start_state(file), damsonyet::outline(file).expect("an outline").0.regions.len());
    let (mut trace, mut number) = (Vec::new(), u64::from(seed));
    while trace.len() < 7 * wanted {
        let places = damsonyet::run(file, &trace, start, Machine::Plain).expect("accepted so far").places;
        let mut allowed = Vec::new();
        for thread in 0..threads {
            for region in 0..regions {
                for flag in 0..2 {
                    let longer = [&trace[..], format!("{thread:02X}{region:02X}{flag:02X}\n").as_bytes()].concat();
                    let is_recheck = flag == 0 && matches!(places[usize::from(thread)], Place::Waiting(_));
                    if !is_recheck && damsonyet::run(file, &longer, start, Machine::Plain).is_ok() {
                        allowed.push(longer);
                    }
                }
            }
        }
        if allowed.is_empty() {
            break;
        }
        number = (number * 1_664_525 + 1_013_904_223) % (1 << 32);
        trace = allowed.swap_remove((number / 65_536) as usize % allowed.len());
    }
    trace
}

#[test]
fn loads_are_drawn_by_the_words() {
    with_stack(|| {
        let (mut whole, mut short) = (0, 0);
        for folder in examples().iter().filter(|folder| folder.join("README.md").is_file()) {
            let file = read(&folder.join("monitor.txt"));
            for (seed, threads, wanted) in [(0, 1, 4), (1, 2, 12), (2026, 3, 16), (u32::MAX, 5, 16), (0x8000_0000, 16, 4)] {
                let load = damsonyet::load(&file, seed, threads.into(), wanted).expect("a load");
                assert_eq!(load.trace, made_by_trying(&file, seed, threads, wanted), "{} {seed} {threads}", folder.display());
                assert_eq!(load.frames, load.trace.len() / 7);
                if load.frames == wanted {
                    whole += 1;
                } else {
                    short += 1;
                }
                let longer = damsonyet::load(&file, seed, threads.into(), 2 * wanted).expect("a load");
                assert_eq!(longer.trace[..load.trace.len()], load.trace);
            }
        }
        assert!(whole >= 20 && short >= 10, "{whole} {short}");
    });
}

/// The loads that stand beside examples, by what their load.txt and README.md ask for; and Box's with every draw, as docs/GUIDE.md tells it:
/// the draw, how many frames are allowed, and the frame.
#[test]
fn loads_of_the_examples() {
    with_stack(|| {
        let mut loads = 0;
        for folder in examples().iter().filter(|folder| folder.join("load.txt").is_file()) {
            let asked = String::from_utf8(read(&folder.join("load.txt"))).expect("a text");
            let numbers: Vec<usize> = asked.split_whitespace().map(|number| number.parse().expect("a number")).collect();
            let [seed, threads, wanted] = numbers[..] else { panic!("{asked}") };
            let load = damsonyet::load(&read(&folder.join("monitor.txt")), seed as u32, threads, wanted).expect("a load");
            assert_eq!(load.trace, read(&folder.join("trace-load.txt")), "{}", folder.display());
            let command = format!("--seed {seed} --threads {threads} --frames {wanted} -o trace-load.txt");
            assert!(String::from_utf8(read(&folder.join("README.md"))).expect("a text").contains(&command), "{}", folder.display());
            loads += 1;
        }
        assert!(loads >= 2, "{loads}");
        let by_hand = [
            (15_496, 6, "020001"),
            (24_200, 6, "010000"),
            (33_046, 4, "020000"),
            (46_195, 2, "000101"),
            (3_312, 3, "000001"),
            (24_216, 2, "000000"),
        ];
        let mut number = 1u32;
        let mut trace = String::new();
        for (draw, _, frame) in by_hand {
            number = number.wrapping_mul(1_664_525).wrapping_add(1_013_904_223);
            assert_eq!(number >> 16, draw);
            trace += &format!("{frame}\n");
        }
        assert_eq!(read(&root().join("box/trace-load.txt")), trace.as_bytes());
        let guide = read(&root().join("../docs/GUIDE.md"));
        let guide = String::from_utf8(guide).expect("a text");
        for (frame, (draw, count, line)) in by_hand.into_iter().enumerate() {
            let row = format!("| {frame} | {draw} | {count} | {} | `{line}` |", draw % count);
            assert!(guide.contains(&row), "{row}");
        }
        // For long: with three threads or more the barrier never stands still.
        let barrier = read(&root().join("barrier/monitor.txt"));
        for (threads, frames) in [(1, 2), (2, 4), (3, 10_000), (16, 10_000)] {
            assert_eq!(damsonyet::load(&barrier, 2026, threads, 10_000).expect("a load").frames, frames);
        }
    });
}

/// 16 before anything else, then the file's, then 10, by the wanted count; refused, not a byte changes, and behind the lines none does.
#[test]
fn loads_that_are_refused() {
    with_stack(|| {
        let threads = Refusal { number: 16, first: 0, second: 0 };
        let short = Refusal { number: 10, first: 0, second: 0 };
        assert_eq!((threads.reason(), threads.of_file()), (Reason::Threads, false));
        assert_eq!(threads.to_string(), "refused, 16 (the count of threads is not 1 to 16)");
        let absurd = [usize::MAX, usize::MAX / 7 + 1, usize::MAX / 7, isize::MAX as usize / 7 + 1, 1 << 58];
        let into = |file: &[u8], threads: usize, wanted: usize, room: usize| {
            let mut buffer = vec![0xA5; room];
            let made = damsonyet::load_into(file, 4, threads, wanted, &mut buffer);
            let written = 7 * made.unwrap_or(0);
            assert!(buffer[written..].iter().all(|&byte| byte == 0xA5));
            assert!(buffer[..written].chunks(7).all(|line| line[6] == b'\n'));
            made
        };
        let mut refused = [0; 16];
        for folder in examples() {
            let file = read(&folder.join("monitor.txt"));
            for count in [0, 17, 18, 32, 255, 256, 257, 1 << 32, (1 << 32) + 1, usize::MAX] {
                assert_eq!(into(&file, count, 3, 21), Err(threads));
                assert_eq!(into(&file, count, 3, 0), Err(threads));
                assert_eq!(damsonyet::load(&file, 4, count, 3), Err(threads));
                assert_eq!(damsonyet::load(&file, 4, count, usize::MAX), Err(threads));
            }
            if let Err(refusal) = damsonyet::check(&file) {
                refused[usize::from(refusal.number)] += 1;
                for (wanted, room) in [(3, 21), (3, 0), (0, 0), (usize::MAX, 5)] {
                    assert_eq!(into(&file, 16, wanted, room), Err(refusal));
                    assert_eq!(damsonyet::load(&file, 4, 1, wanted), Err(refusal));
                }
                continue;
            }
            for (wanted, room) in [(1, 0), (1, 6), (3, 20), (3, 18), (300, 2099)].into_iter().chain(absurd.map(|wanted| (wanted, 2100))) {
                assert_eq!(into(&file, 2, wanted, room), Err(short), "{wanted} {room}");
            }
            // What cannot be held is refused, and not the end of the program.
            for wanted in absurd {
                assert_eq!(damsonyet::load(&file, 4, 2, wanted), Err(short), "{wanted}");
            }
            for (wanted, room) in [(0, 0), (0, 5), (1, 7), (1, 20), (3, 21), (3, 22), (300, 2100)] {
                let made = into(&file, 2, wanted, room).expect("a load");
                let load = damsonyet::load(&file, 4, 2, wanted).expect("a load");
                assert_eq!((load.frames, load.trace.len()), (made, 7 * made));
                assert!(made <= wanted && (made > 0 || wanted == 0));
            }
        }
        assert!((1..=9).chain([15]).all(|number| refused[number] > 0), "{refused:?}");
        assert_eq!(into(&[b' '; 8193], 17, 1, 7), Err(threads));
        assert_eq!(into(&[b' '; 8193], 1, 1, 6).map_err(|refusal| refusal.number), Err(1));
        assert_eq!(into(b"", 0, 0, 0), Err(threads));
    });
}

/// The deepest conditions that a file of 1,024 tokens can have: every call fits the stack that is stated.
#[test]
fn deepest_files_fit_the_stated_stack() {
    let bangs = |n: usize| "!".repeat(n);
    let files = [
        format!("monitor m {{ var x = 0 in 0..1; keep {}true; method a {{ waituntil (true) {{ }} }} }}", bangs(998)),
        format!("monitor m {{ var x = 0 in 0..1; keep true; method a {{ waituntil ({}true) {{ }} }} }}", bangs(998)),
        format!("monitor m {{ var x = 0 in 0..1; keep true; try {}true; method a {{ waituntil (true) {{ }} }} }}", bangs(994)),
        format!("monitor m {{ var x = 0 in 0..1; keep true; method a {{ waituntil (true) {{ if ({}true) {{ }} }} }} }}", bangs(992)),
    ];
    for file in files {
        let calls = move || {
            let (file, trace) = (file.as_bytes(), b"000001\n000001\n");
            assert_eq!(damsonyet::check(file), Ok(()));
            assert_eq!(damsonyet::place(file).unwrap().entries, []);
            assert!(damsonyet::run_both_from_start(file, trace).unwrap().table.is_ok());
            assert_eq!(damsonyet::points(file, trace, 0).unwrap().points.len(), 3);
            assert_eq!(damsonyet::outline(file).unwrap().0.states, 2);
            assert!(damsonyet::state_at(file, 1).unwrap().unwrap().kept);
            assert!(damsonyet::fates(file).unwrap().iter().all(|fate| *fate == Fate::Chosen));
            assert_eq!(damsonyet::number_of(file, &[1]), Ok(Some(1)));
            assert_eq!(damsonyet::runner_lines(file, trace).len(), 2 * 37);
            assert_eq!(damsonyet::load(file, 1, 16, 50).unwrap().frames, 50);
        };
        // Beside the call stands what the thread itself takes.
        std::thread::Builder::new().stack_size(damsonyet::STACK + (32 << 10)).spawn(calls).unwrap().join().unwrap();
    }
}
