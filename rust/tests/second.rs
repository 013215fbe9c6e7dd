//! The library beside the second program (`reference/`): every call gives the same, on generated cases and on hostile input.
use damsonyet::{Entry, Fate, Machine, Notices, Outcome, Place, Point, Points, Record, Refusal};
use reference::cases::asks::Ask;
use reference::cases::counted::counted;
use reference::cases::divided::divided;
use reference::cases::draws::Draws;
use reference::cases::loaded::loaded;
use reference::cases::made::made;
use reference::cases::queued::queued;
use reference::cases::{make_case, Case, Size};
use reference::hostile::Bases;
use reference::machines::Machines;
use reference::outline as second;
use reference::points::{needed, POINT};
use reference::{pairs, table, Answer};
use std::fmt::Debug;
use std::time::Instant;

/// The archive's own calls, for what the wrappers leave out: slots behind the counts, and lent buffers.
#[allow(dead_code)]
#[path = "../src/ffi.rs"]
mod ffi;

/// An input, and how to make it again.
struct Input {
    name: String,
    file: Vec<u8>,
    trace: Vec<u8>,
}

impl Input {
    fn of(name: String, case: Case) -> Input {
        Input { name, file: case.monitor, trace: case.trace }
    }

    /// Both programs' results of a call are equal.
    fn same<T: PartialEq + Debug>(&self, call: impl Debug, library: T, second: T) {
        if library != second {
            let shown = |bytes: &[u8]| format!("{} bytes: {}", bytes.len(), bytes[..bytes.len().min(2000)].escape_ascii());
            let Input { name, file, trace } = self;
            let (file, trace) = (shown(file), shown(trace));
            panic!("{name}: {call:?} differs\nlibrary {library:?}\nsecond  {second:?}\nfile of {file}\ntrace of {trace}");
        }
    }
}

fn cases(seed: u64, count: usize, size: Size, word: &'static str) -> impl Iterator<Item = Input> {
    (0..count).map(move |number| Input::of(format!("case {number} of seed {seed}, {word}"), make_case(seed, number, size)))
}

/// The cases that are made for tries.
fn made_for_tries() -> impl Iterator<Item = Input> {
    made().into_iter().enumerate().map(|(number, made)| Input::of(format!("case {number} made for tries"), made.case))
}

/// The cases whose touched pairs are counted by hand, each with its count.
fn counted_by_hand() -> impl Iterator<Item = (Input, usize)> {
    counted().into_iter().map(|one| (Input::of(format!("case counted by hand: {}", one.what), one.case), one.pairs))
}

/// The cases about the order of waiters, each with how it ends, worked out by hand.
fn queued_by_hand() -> impl Iterator<Item = (Input, String)> {
    queued().into_iter().map(|one| (Input::of(format!("case about the queue: {}", one.what), one.case), one.ends))
}

/// The cases about remainders, each with what is told of it, worked out by hand.
fn divided_by_hand() -> impl Iterator<Item = (Input, String)> {
    divided().into_iter().map(|one| (Input::of(format!("case about remainders: {}", one.what), one.case), one.told))
}

/// The cases about loads, each with what is asked and what becomes of it, worked out by hand.
fn loaded_by_hand() -> impl Iterator<Item = (Input, Ask, String)> {
    loaded().into_iter().map(|one| (Input::of(format!("case about loads: {}", one.what), one.case()), one.ask, one.told))
}

fn hostile(seed: u64, count: usize) -> impl Iterator<Item = Input> {
    let mut bases = Bases::of(seed);
    (0..count).map(move |number| Input::of(format!("hostile input {number} of seed {seed}"), bases.input(number)))
}

/// A thread with the stack that a call may need, and more for the second program.
fn with_stack(test: impl FnOnce() + Send + 'static) {
    let thread = std::thread::Builder::new().stack_size(16 * damsonyet::STACK).spawn(test).expect("a thread");
    thread.join().expect("the test");
}

// What the second program gives, in the wrappers' types.

fn refusal(answer: Answer) -> Refusal {
    Refusal { number: answer.number, first: answer.first, second: answer.second }
}

fn place_of(place: reference::Place) -> Place {
    match place {
        reference::Place::Idle => Place::Idle,
        reference::Place::Waiting(region) => Place::Waiting(region as u8),
        reference::Place::Due(region) => Place::Due(region as u8),
    }
}

fn values(values: &[i64]) -> Vec<i16> {
    values.iter().map(|&value| value as i16).collect()
}

fn record(record: reference::Record) -> Record {
    Record {
        values: values(&record.values),
        places: record.places.map(place_of),
        notified: (0..16).filter(|&thread| record.notified[usize::from(thread)]).collect(),
        turns: record.turns,
    }
}

fn run_of(machines: &Result<Machines, Refusal>, trace: &[u8], start: usize, machine: reference::Machine) -> Result<Record, Refusal> {
    machines.as_ref().map_err(|refused| *refused)?.run(trace, start, machine).map(record).map_err(refusal)
}

/// A point of the second program, from its bytes.
fn point(bytes: &[u8]) -> Point {
    let set = |at: usize| u16::from(bytes[at]) + 256 * u16::from(bytes[at + 1]);
    let place = |byte: u8| match byte {
        255 => Place::Idle,
        byte if byte < 16 => Place::Waiting(byte),
        byte => Place::Due(byte - 16),
    };
    Point {
        values: std::array::from_fn(|slot| i16::from(bytes[slot]) - 128),
        places: std::array::from_fn(|thread| place(bytes[6 + thread])),
        turns: std::array::from_fn(|thread| bytes[33 + thread]),
        guards: set(22),
        plain: Notices { notified: set(24), told: set(26) },
        table: if bytes[28] == 1 { Some(Notices { notified: set(29), told: set(31) }) } else { None },
    }
}

fn points(file: &[u8], trace: &[u8], start: usize) -> Result<Points, Refusal> {
    let mut buffer = vec![0; needed(trace.len())];
    let given = reference::points(file, trace, start, &mut buffer);
    match given.plain {
        Err(answer) if !matches!(answer.number, 13 | 14) => Err(refusal(answer)),
        _ => Ok(Points {
            plain: given.plain.map_err(refusal),
            table: given.table.map_err(refusal),
            points: buffer.chunks(POINT).take(given.count).map(point).collect(),
        }),
    }
}

fn outline((verdict, told): second::Told<second::Outline>) -> Result<(damsonyet::Outline, Result<(), Refusal>), Refusal> {
    let verdict = verdict.map_err(refusal);
    let Some(told) = told else {
        return Err(verdict.expect_err("told of every file that is accepted"));
    };
    let variable = |v: &second::Variable| damsonyet::Variable {
        name: v.name.clone(),
        start: v.start as i16,
        low: v.lowest as i16,
        high: v.highest as i16,
    };
    let behind = |method: usize| told.methods.get(method + 1).map_or(told.regions.len(), |next| next.first);
    let methods =
        told.methods.iter().enumerate().map(|(n, m)| damsonyet::Method { name: m.name.clone(), regions: m.first..behind(n) }).collect();
    let region = |r: &second::Region| damsonyet::Region { guard: r.guard.clone(), body: r.body.clone(), guard_number: r.number as u8 };
    let outline = damsonyet::Outline {
        title: told.title,
        keep: told.keep,
        tries: told.tries,
        variables: told.variables.iter().map(variable).collect(),
        methods,
        regions: told.regions.iter().map(region).collect(),
        guards: told.guards,
        states: told.states,
        start: told.start,
    };
    Ok((outline, verdict))
}

fn fates((verdict, told): second::Told<Vec<reference::Fate>>) -> Result<Vec<Fate>, Refusal> {
    let fate = |fate: reference::Fate| match fate {
        reference::Fate::Chosen => Fate::Chosen,
        reference::Fate::FalseAtStart => Fate::FalseAtStart,
        reference::Fate::Broken { pass, region, state } => Fate::Broken { pass: pass as u8, region: region as u8, state: state as u16 },
    };
    match told {
        Some(told) => Ok(told.into_iter().map(fate).collect()),
        None => Err(refusal(verdict.expect_err("told of every file that is accepted"))),
    }
}

fn bits(holds: &[bool]) -> u16 {
    holds.iter().rev().fold(0, |set, &holds| 2 * set + u16::from(holds))
}

fn state((verdict, told): second::Told<second::State>) -> Result<Option<damsonyet::State>, Refusal> {
    match verdict {
        Err(answer) if answer.number != 9 => return Err(refusal(answer)),
        _ => {}
    }
    let outcome = |after: second::After| match after {
        second::After::Never => None,
        second::After::Fault => Some(Outcome::Faults),
        second::After::Ends(number) => Some(Outcome::Ends(number as u16)),
    };
    Ok(told.map(|told| damsonyet::State {
        kept: told.kept,
        values: values(&told.values),
        holds: bits(&told.holds),
        after: std::array::from_fn(|region| told.after.get(region).copied().and_then(outcome)),
    }))
}

/// Six numbers: the values, and then one that is in no range.
fn six(values: &[i16]) -> [i64; 6] {
    std::array::from_fn(|slot| values.get(slot).map_or(9_999, |&value| value.into()))
}

fn number((verdict, told): second::Told<usize>) -> Result<Option<usize>, Refusal> {
    match verdict {
        Err(answer) if !matches!(answer.number, 8 | 9) => Err(refusal(answer)),
        _ => Ok(told),
    }
}

/// The refusals of a file, in the order of the checks.
const OF_FILE: [usize; 10] = [1, 2, 3, 4, 5, 6, 7, 15, 8, 9];

/// What was compared.
#[derive(Debug, Default)]
struct Counts {
    inputs: usize,
    accepted: usize,
    /// Accepted files with 4,096 states, and traces of more bytes than `runner` judges beside accepted files.
    most_states: usize,
    longer_traces: usize,
    refused: [usize; 16],
    /// Pairs of region and guard in accepted files, and the touched ones among them; and files in which some are and some are not.
    pairs: usize,
    touched: usize,
    partly_touched: usize,
    /// Runs by their answers, on both machines.
    runs: [usize; 16],
    points: usize,
    parted: usize,
    /// Points at which the queue is not in the order of the threads' numbers.
    by_arrival: usize,
    /// Files of which fates are told and that have tries; the tries by their fates, the broken ones by their passes from the second on; and
    /// files refused with 9 of which fates are told.
    tried: usize,
    chosen: usize,
    false_at_start: usize,
    broken: usize,
    broken_later: usize,
    tried_refused: usize,
    states: usize,
    faults: usize,
    not_kept: usize,
    numbers: usize,
}

/// From where runs start: the start values, the first and the last state, one that is not kept, some between, and numbers of no state.
fn starts(machines: &Result<Machines, Refusal>) -> Vec<usize> {
    let Ok(machines) = machines else { return vec![0, usize::MAX] };
    let monitor = &machines.monitor;
    let (start, count) = (monitor.start_number(), monitor.count_of_states());
    let not_kept = (0..count).find(|&number| !monitor.is_kept(&monitor.state_values(number)));
    let mut starts = vec![start, 0, count / 3, count - 1, count, start + 65_536, usize::MAX];
    starts.extend(not_kept);
    starts.sort();
    starts.dedup();
    starts
}

fn compare(input: &Input, counts: &mut Counts) {
    let file = &input.file;
    counts.inputs += 1;
    let monitor = reference::check(file).map_err(refusal);
    match &monitor {
        Ok(monitor) => {
            counts.accepted += 1;
            counts.most_states += usize::from(monitor.count_of_states() == 4_096);
            counts.longer_traces += usize::from(input.trace.len() > reference::lines::MOST_TRACE_BYTES);
            let (touched, all) = (pairs::count(monitor), monitor.regions.len() * monitor.guards.len());
            counts.pairs += all;
            counts.touched += touched;
            counts.partly_touched += usize::from(0 < touched && touched < all);
        }
        Err(refused) => counts.refused[usize::from(refused.number)] += 1,
    }
    input.same("check", damsonyet::check(file), monitor.as_ref().map(|_| ()).map_err(|refused| *refused));
    let machines = monitor.map(Machines::of);
    tables_and_lines(input, &machines);
    tries(input, counts);
    runs(input, &machines, counts);
    outlines_and_states(input, counts);
}

fn tables_and_lines(input: &Input, machines: &Result<Machines, Refusal>) {
    let Input { file, trace, .. } = input;
    let entry =
        |e: &table::Entry| Entry { region: e.region as u8, guard: e.guard as u8, unconditional: e.unconditional, broadcast: e.broadcast };
    let placed = machines
        .as_ref()
        .map(|m| damsonyet::Table {
            entries: m.entries.iter().map(entry).collect(),
            chosen: m.monitor.chosen(),
            pairs: pairs::count(&m.monitor) as u16,
            text: table::table_lines(&m.entries),
        })
        .map_err(|refused| *refused);
    input.same("place", damsonyet::place(file), placed);
    input.same("placer_lines", damsonyet::placer_lines(file), reference::lines::placer(file));
    input.same("runner_lines", damsonyet::runner_lines(file, trace), reference::lines::runner(file, trace));
    let start = machines.as_ref().map_or(0, |machines| machines.monitor.start_number());
    input.same("start_state", damsonyet::start_state(file), start);
}

fn tries(input: &Input, counts: &mut Counts) {
    let second = fates(reference::tried(&input.file));
    let told = damsonyet::fates(&input.file);
    input.same("fates", told.clone(), second);
    let Ok(told) = told else { return };
    counts.tried += usize::from(!told.is_empty());
    counts.tried_refused += usize::from(!told.is_empty() && damsonyet::check(&input.file).is_err());
    for fate in told {
        match fate {
            Fate::Chosen => counts.chosen += 1,
            Fate::FalseAtStart => counts.false_at_start += 1,
            Fate::Broken { pass, region, state } => {
                counts.broken += 1;
                counts.broken_later += usize::from(pass > 1);
                // Where the body leads from there can be asked: the state is kept, and the body ends.
                let from = damsonyet::state_at(&input.file, state.into()).expect("told").expect("a state");
                assert!(from.kept && matches!(from.after[usize::from(region)], Some(Outcome::Ends(_))), "{}", input.name);
            }
        }
    }
}

fn runs(input: &Input, machines: &Result<Machines, Refusal>, counts: &mut Counts) {
    let Input { file, trace, .. } = input;
    let both_from = |start: usize| -> Result<damsonyet::Both, Refusal> {
        machines.as_ref().map_err(|refused| *refused)?;
        let [plain, table] = [reference::Machine::Plain, reference::Machine::Table].map(|machine| run_of(machines, trace, start, machine));
        Ok(damsonyet::Both { plain, table })
    };
    let from_start = machines.as_ref().map_or(0, |machines| machines.monitor.start_number());
    input.same("run_both_from_start", damsonyet::run_both_from_start(file, trace), both_from(from_start));
    for start in starts(machines) {
        let both = both_from(start);
        input.same(("run_both", start), damsonyet::run_both(file, trace, start), both.clone());
        let [plain, table] = match both {
            Ok(both) => [both.plain, both.table],
            Err(refused) => [Err(refused), Err(refused)],
        };
        for run in [&plain, &table] {
            counts.runs[run.as_ref().map_or_else(|refused| usize::from(refused.number), |_| 0)] += 1;
        }
        counts.parted += usize::from(plain.is_ok() != table.is_ok());
        input.same(("run plain", start), damsonyet::run(file, trace, start, Machine::Plain), plain);
        input.same(("run table", start), damsonyet::run(file, trace, start, Machine::Table), table);
        let points = points(file, trace, start);
        if let Ok(points) = &points {
            counts.points += points.points.len();
            counts.by_arrival += points.points.iter().filter(|point| !point.queue().is_sorted()).count();
        }
        input.same(("points", start), damsonyet::points(file, trace, start), points);
    }
}

fn outlines_and_states(input: &Input, counts: &mut Counts) {
    let file = &input.file;
    let told = outline(second::outline(file));
    input.same("outline", damsonyet::outline(file), told.clone());
    let Ok((told, verdict)) = told else {
        for wanted in [0, 1, usize::MAX] {
            input.same(("state_at", wanted), damsonyet::state_at(file, wanted), state(second::state_at(file, wanted)));
        }
        for values in [&[0; 6][..], &[1]] {
            input.same(("number_of", values), damsonyet::number_of(file, values), number(second::number_of(file, six(values))));
        }
        return;
    };
    // Every state of a small file; of a large one the ends, the start, that of a refusal 9, and some between.
    let count = told.states;
    let mut numbers: Vec<usize> = match count {
        0..=64 => (0..count).collect(),
        _ => (0..8).map(|part| part * count / 8 + part).chain([told.start, count - 1]).collect(),
    };
    numbers.extend(verdict.err().filter(|refused| refused.number == 9).map(|refused| refused.second));
    numbers.extend([count, count + 1, told.start + 65_536, told.start + (1 << 32), usize::MAX]);
    for wanted in numbers {
        let state = state(second::state_at(file, wanted));
        if let Ok(Some(state)) = &state {
            counts.states += 1;
            counts.not_kept += usize::from(!state.kept);
            counts.faults += usize::from(state.after.contains(&Some(Outcome::Faults)));
        }
        input.same(("state_at", wanted), damsonyet::state_at(file, wanted), state.clone());
        if let Ok(Some(state)) = state {
            let back = number(second::number_of(file, six(&state.values)));
            assert_eq!(back, Ok(Some(wanted)), "{}: the second program's own numbers", input.name);
            input.same(("number_of", &state.values), damsonyet::number_of(file, &state.values), back);
            counts.numbers += 1;
        }
    }
    // The start values, each value in turn about its range and far from it; then too few and too many, which are no state's.
    let start: Vec<i16> = told.variables.iter().map(|variable| variable.start).collect();
    for (slot, variable) in told.variables.iter().enumerate() {
        let about = [variable.low - 1, variable.low, variable.high, variable.high + 1, -128, 127, -129, 128, i16::MIN, i16::MAX];
        // The second program checks the file anew for each.
        let every = if count <= 64 { 1 } else { 3 };
        for &value in about.iter().step_by(every) {
            let mut values = start.clone();
            values[slot] = value;
            let second = number(second::number_of(file, six(&values)));
            input.same(("number_of", &values), damsonyet::number_of(file, &values), second);
            counts.numbers += 1;
        }
    }
    let longer = [&start[..], &[0]].concat();
    for values in [&start[1..], &longer] {
        input.same(("number_of", values), damsonyet::number_of(file, values), Ok(None));
    }
}

/// What the archive's structs and lent buffers hold beyond what the wrappers tell.
fn compare_slots(input: &Input) {
    let Input { file, trace, .. } = input;
    let machines = reference::check(file).map(Machines::of);
    let start = machines.as_ref().map_or(0, |machines| machines.monitor.start_number());
    lent_buffers(input, &machines, start);
    for start in [start, usize::MAX] {
        for (table, machine) in [(false, reference::Machine::Plain), (true, reference::Machine::Table)] {
            let given = unsafe { ffi::damsonyet_run(file.as_ptr(), file.len(), trace.as_ptr(), trace.len(), start, table) };
            let run = machines.as_ref().map_err(|answer| *answer).and_then(|machines| machines.run(trace, start, machine));
            let (values, places, turns) = match &run {
                Ok(record) => (&record.values[..], record.places.map(reference::Place::byte), record.turns),
                Err(_) => (&[][..], [255; 16], [0; 16]),
            };
            let (notified, how_many) = run.as_ref().map_or((0, 0), |record| (record.notified_bits(), record.how_many()));
            let library = (given.vars, given.values, given.places, given.notified, given.how_many as usize, given.turns);
            let second = (values.len(), held(values), places, notified, how_many, turns);
            input.same(("run's slots", start, table), library, second);
            let second = (numbers(run.as_ref().err()), machines.is_err());
            input.same(("run's answer", start, table), (three(given.answer), given.of_file), second);
        }
    }
    let (verdict, told) = second::outline(file);
    let given = unsafe { ffi::damsonyet_outline_of(file.as_ptr(), file.len()) };
    input.same("outline's slots", outline_numbers(&given), second_numbers(verdict, told.as_ref()));
    let (verdict, fates) = reference::tried(file);
    let given = unsafe { ffi::damsonyet_fates_of(file.as_ptr(), file.len()) };
    input.same("fates' slots", fates_numbers(&given), second_fates(verdict, fates));
    for wanted in [start, told.as_ref().map_or(1, |told| told.states - 1), told.map_or(2, |told| told.states)] {
        let given = unsafe { ffi::damsonyet_state_at(file.as_ptr(), file.len(), wanted) };
        let library = (three(given.answer), given.known, given.kept, given.vars, given.values, given.holds, given.after);
        let (verdict, told) = second::state_at(file, wanted);
        let answer = numbers(verdict.as_ref().err());
        let second = match told {
            Some(told) => {
                let after = std::array::from_fn(|region| match told.after.get(region) {
                    None | Some(second::After::Never) => 65_535,
                    Some(second::After::Fault) => 65_534,
                    Some(second::After::Ends(number)) => *number as u16,
                });
                (answer, true, told.kept, told.values.len(), held(&told.values), bits(&told.holds), after)
            }
            None => (answer, false, false, 0, [0; 6], 0, [0; 16]),
        };
        input.same(("state_at's slots", wanted), library, second);
    }
    // Any six numbers: those of the start values with others behind them, and some that are no byte's.
    let values = machines.as_ref().map_or(vec![], |machines| machines.monitor.start_values());
    for other in [0, 127, 128, 129, 255, 256, 32_768, 65_535] {
        for kept in [values.len(), 1] {
            let held: [u16; 6] = std::array::from_fn(|slot| values.get(slot).filter(|_| slot < kept).map_or(other, |v| (v + 128) as u16));
            let given = unsafe { ffi::damsonyet_number_of(file.as_ptr(), file.len(), ffi::Values { held }) };
            let (verdict, told) = second::number_of(file, held.map(|held| i64::from(held) - 128));
            let second = (numbers(verdict.as_ref().err()), told.is_some(), told.unwrap_or(0));
            input.same(("number_of's slots", held), (three(given.answer), given.known, given.number), second);
        }
    }
}

/// Tables, lines and points in buffers that are too short, just long enough, or longer: every byte, those that stay included.
fn lent_buffers(input: &Input, machines: &Result<Machines, Answer>, start: usize) {
    const BEFORE: u8 = 0xA5;
    let Input { file, trace, .. } = input;
    let written = |lines: &[u8], length: usize| {
        let mut buffer = lines.to_vec();
        buffer.resize(length, BEFORE);
        buffer
    };
    let length = machines.as_ref().map_or(0, |machines| 9 * machines.entries.len());
    for room in [0, length.saturating_sub(1), length, length + 9] {
        let mut buffer = vec![BEFORE; room];
        let given = unsafe { ffi::damsonyet_place(file.as_ptr(), file.len(), buffer.as_mut_ptr(), room) };
        let second = reference::place(file, room);
        let (lines, chosen, pairs) = second.as_ref().map_or((&[][..], 0, 0), |placed| (&placed.table[..], placed.chosen, placed.pairs));
        let wanted = (numbers(second.as_ref().err()), lines.len(), chosen, pairs, written(lines, room));
        let library = (three(given.answer), given.length, given.chosen, given.pairs.into(), buffer);
        input.same(("place's buffer", room), library, wanted);
    }
    let mut buffer = Box::new([BEFORE; ffi::OUTPUT_BYTES]);
    let count = unsafe { ffi::damsonyet_placer_lines(file.as_ptr(), file.len(), &mut *buffer) };
    let lines = reference::lines::placer(file);
    input.same("placer_lines' buffer", (count, buffer.to_vec()), (lines.len(), written(&lines, buffer.len())));
    buffer.fill(BEFORE);
    let count = unsafe { ffi::damsonyet_runner_lines(file.as_ptr(), file.len(), trace.as_ptr(), trace.len(), &mut *buffer) };
    let lines = reference::lines::runner(file, trace);
    input.same("runner_lines' buffer", (count, buffer.to_vec()), (lines.len(), written(&lines, buffer.len())));
    for room in [0, needed(trace.len()) - 1, needed(trace.len()) + POINT] {
        let [mut library, mut second] = [vec![BEFORE; room], vec![BEFORE; room]];
        let (file_at, trace_at, out) = (file.as_ptr(), trace.as_ptr(), library.as_mut_ptr());
        let given = unsafe { ffi::damsonyet_points(file_at, file.len(), trace_at, trace.len(), start, out, room) };
        let wanted = reference::points(file, trace, start, &mut second);
        let answers = [numbers(wanted.plain.as_ref().err()), numbers(wanted.table.as_ref().err())];
        input.same(("points' answers", room), ([three(given.plain), three(given.table)], given.count), (answers, wanted.count));
        input.same(("points' buffer", room), library, second);
    }
}

/// What loads were compared.
#[derive(Debug, Default)]
struct Loads {
    /// By their answers.
    answers: [usize; 17],
    frames: usize,
    /// Those that are made: as long as wanted, ended short, the most frames of one that ended short, and those of sixteen threads.
    whole: usize,
    short: usize,
    longest_short: usize,
    by_sixteen: usize,
    /// Accepted files with buffers that are one byte too short, just long enough, or longer; and counts whose bytes no number can say.
    one_less: usize,
    exact: usize,
    longer: usize,
    unsayable: usize,
}

/// A load beside the second program's: the answer, the count and every byte of the buffer, those that stay included.
fn compare_load(input: &Input, ask: Ask, counts: &mut Loads) {
    const BEFORE: u8 = 0xA5;
    let file = &input.file;
    let Ask { seed, threads, wanted, room } = ask;
    let [mut library, mut second, mut wrapped] = [vec![BEFORE; room], vec![BEFORE; room], vec![BEFORE; room]];
    let given = unsafe { ffi::damsonyet_load(file.as_ptr(), file.len(), seed, threads, wanted, library.as_mut_ptr(), room) };
    let told = reference::load(file, seed, threads, wanted, &mut second);
    let answer = numbers(told.answer.as_ref().err());
    input.same((ask, "load"), (three(given.answer), given.count), (answer, told.count));
    input.same((ask, "load's buffer"), &library, &second);
    let into = damsonyet::load_into(file, seed, threads, wanted, &mut wrapped);
    input.same((ask, "load_into"), into, told.answer.map(|()| told.count).map_err(refusal));
    input.same((ask, "load_into's buffer"), &wrapped, &second);
    counts.answers[usize::from(answer.0)] += 1;
    if let 0 | 10 = answer.0 {
        let exact = wanted.checked_mul(7);
        counts.unsayable += usize::from(exact.is_none());
        counts.one_less += usize::from(exact.is_some_and(|exact| exact == room + 1));
        counts.exact += usize::from(exact == Some(room));
        counts.longer += usize::from(exact.is_some_and(|exact| exact < room));
    }
    // The wrapper lends a buffer of its own: what is left is whether there is memory for it.
    if wanted < 1 << 20 || answer.0 == 16 {
        let own = damsonyet::load(file, seed, threads, wanted);
        let second = match told.answer {
            Ok(()) => Ok(second[..7 * told.count].to_vec()),
            Err(answer) if answer.number != 10 => Err(refusal(answer)),
            Err(_) => {
                let mut buffer = vec![BEFORE; 7 * wanted];
                let count = reference::load(file, seed, threads, wanted, &mut buffer).count;
                Ok(buffer[..7 * count].to_vec())
            }
        };
        let second = second.map(|trace| damsonyet::Load { frames: trace.len() / 7, trace });
        input.same((ask, "load of its own"), own, second);
    }
    if answer.0 != 0 {
        return;
    }
    let trace = &library[..7 * given.count];
    counts.frames += given.count;
    counts.by_sixteen += usize::from(threads == 16);
    if given.count == wanted {
        counts.whole += 1;
    } else {
        counts.short += 1;
        counts.longest_short = counts.longest_short.max(given.count);
    }
    let points = damsonyet::points(file, trace, damsonyet::start_state(file)).expect("an accepted file");
    assert_eq!((points.plain, points.table), (Ok(()), Ok(())), "{}: both machines accept {ask:?}", input.name);
    // No recheck, and at an end that comes short all its threads wait.
    for (line, before) in trace.chunks(7).zip(&points.points) {
        let thread = char::from(line[1]).to_digit(16).expect("a digit") as usize;
        assert!(!matches!(before.places[thread], Place::Waiting(_)) || line[5] == b'1', "{}: {ask:?}", input.name);
    }
    let end = points.points.last().expect("a point").places;
    assert!(end[threads..].iter().all(|place| *place == Place::Idle), "{}: {ask:?}", input.name);
    assert!(given.count == wanted || end[..threads].iter().all(|place| matches!(place, Place::Waiting(_))), "{}: {ask:?}", input.name);
}

fn three(answer: ffi::Answer) -> (u8, usize, usize) {
    (answer.number, answer.first, answer.second)
}

fn numbers(answer: Option<&Answer>) -> (u8, usize, usize) {
    answer.map_or((0, 0, 0), |answer| (answer.number, answer.first, answer.second))
}

/// Six slots: the values with 128 added, and 128 behind them.
fn held(values: &[i64]) -> [u16; 6] {
    std::array::from_fn(|slot| (values.get(slot).unwrap_or(&0) + 128) as u16)
}

/// All numbers of an outline in the header's order.
fn outline_numbers(o: &ffi::Outline) -> Vec<usize> {
    let mut all = vec![o.answer.number.into(), o.answer.first, o.answer.second];
    all.extend([o.vars, o.tries, o.methods, o.regions, o.guards, o.states, o.start]);
    all.extend([o.title.from, o.title.to, o.keep.from, o.keep.to]);
    for v in &o.variable {
        all.extend([v.name.from, v.name.to, v.start.into(), v.low.into(), v.high.into()]);
    }
    for t in &o.tried {
        all.extend([t.from, t.to]);
    }
    for m in &o.method {
        all.extend([m.name.from, m.name.to, m.first]);
    }
    for r in &o.region {
        all.extend([r.guard.from, r.guard.to, r.body.from, r.body.to, r.number]);
    }
    all
}

/// The same of the second program's: slots behind the counts are 0.
fn second_numbers(verdict: Result<(), Answer>, told: Option<&second::Outline>) -> Vec<usize> {
    let (number, first, place) = numbers(verdict.as_ref().err());
    let mut all = vec![number.into(), first, place];
    if let Some(o) = told {
        all.extend([o.variables.len(), o.tries.len(), o.methods.len(), o.regions.len(), o.guards, o.states, o.start]);
        all.extend([o.title.start, o.title.end, o.keep.start, o.keep.end]);
        for v in &o.variables {
            all.extend([v.name.start, v.name.end]);
            all.extend([v.start, v.lowest, v.highest].map(|value| (value + 128) as usize));
        }
        all.resize(14 + 6 * 5, 0);
        for t in &o.tries {
            all.extend([t.start, t.end]);
        }
        all.resize(14 + 6 * 5 + 16 * 2, 0);
        for m in &o.methods {
            all.extend([m.name.start, m.name.end, m.first]);
        }
        all.resize(14 + 6 * 5 + 16 * 2 + 8 * 3, 0);
        for r in &o.regions {
            all.extend([r.guard.start, r.guard.end, r.body.start, r.body.end, r.number]);
        }
    }
    all.resize(14 + 6 * 5 + 16 * 2 + 8 * 3 + 16 * 5, 0);
    all
}

/// All numbers of what is told of tries, in the header's order.
fn fates_numbers(f: &ffi::Fates) -> Vec<usize> {
    let mut all = vec![f.answer.number.into(), f.answer.first, f.answer.second, f.known.into(), f.tries, f.chosen.into()];
    all.extend(f.passes.map(usize::from));
    all.extend(f.regions.map(usize::from));
    all.extend(f.states.map(usize::from));
    all
}

/// The same of the second program's.
fn second_fates(verdict: Result<(), Answer>, told: Option<Vec<reference::Fate>>) -> Vec<usize> {
    let (number, first, place) = numbers(verdict.as_ref().err());
    let fates = told.as_deref().unwrap_or_default();
    let chosen = (0..fates.len()).filter(|&i| fates[i] == reference::Fate::Chosen).map(|i| 1 << i).sum::<usize>();
    let mut all = vec![number.into(), first, place, told.is_some().into(), fates.len(), chosen];
    let broken = |i: usize| match fates.get(i) {
        Some(&reference::Fate::Broken { pass, region, state }) => [pass, region, state],
        _ => [0; 3],
    };
    for part in 0..3 {
        all.extend((0..16).map(|i| broken(i)[part]));
    }
    all
}

#[test]
fn generated_cases() {
    with_stack(|| {
        let begun = Instant::now();
        let mut counts = Counts::default();
        for input in cases(37, 200, Size::SMALL, "small").chain(cases(38, 100, Size::FULL, "full")) {
            compare(&input, &mut counts);
        }
        println!("{counts:?} in {:?}", begun.elapsed());
        assert!(counts.accepted >= 100 && OF_FILE.iter().all(|&number| counts.refused[number] >= 6), "{counts:?}");
        assert!([0, 11, 12, 13, 14].iter().all(|&answer| counts.runs[answer] >= 20), "{counts:?}");
        assert!(counts.parted >= 10 && counts.by_arrival >= 100 && counts.faults >= 5 && counts.not_kept >= 50, "{counts:?}");
        assert!(counts.tried >= 30 && counts.chosen >= 50 && counts.false_at_start >= 20 && counts.broken >= 20, "{counts:?}");
        let others = counts.pairs - counts.touched;
        assert!(counts.partly_touched >= 50 && counts.touched >= 500 && others >= 500, "{counts:?}");
    });
}

#[test]
fn cases_counted_by_hand() {
    with_stack(|| {
        let begun = Instant::now();
        let mut counts = Counts::default();
        for (input, pairs) in counted_by_hand() {
            let placed = damsonyet::place(&input.file).map_or(0, |table| table.pairs);
            assert_eq!(usize::from(placed), pairs, "{}", input.name);
            compare(&input, &mut counts);
            compare_slots(&input);
        }
        println!("{counts:?} in {:?}", begun.elapsed());
        assert!(counts.accepted >= 20 && counts.accepted < counts.inputs && counts.partly_touched >= 10, "{counts:?}");
    });
}

/// How a run ends: a refusal, or the values and who waits, the earliest first, each with its region.
fn end(run: &Result<Record, Refusal>) -> String {
    match run {
        Err(refusal) => format!("{} at {}", refusal.number, refusal.first),
        Ok(record) => {
            let values: Vec<String> = record.values.iter().map(i16::to_string).collect();
            let waiter = |thread: u8| format!(" {thread}@{}", record.places[usize::from(thread)].byte());
            format!("{}:{}", values.join(","), record.queue().into_iter().map(waiter).collect::<String>())
        }
    }
}

#[test]
fn cases_about_the_queue() {
    with_stack(|| {
        let begun = Instant::now();
        let mut counts = Counts::default();
        for (input, ends) in queued_by_hand() {
            let both = damsonyet::run_both_from_start(&input.file, &input.trace).expect("an accepted file");
            let (plain, table) = (end(&both.plain), end(&both.table));
            assert_eq!(if plain == table { plain } else { format!("{plain} / {table}") }, ends, "{}", input.name);
            compare(&input, &mut counts);
            compare_slots(&input);
        }
        println!("{counts:?} in {:?}", begun.elapsed());
        assert!(counts.inputs >= 24 && counts.accepted == counts.inputs && counts.by_arrival >= 100, "{counts:?}");
        assert!(counts.runs[0] >= 24 && counts.runs[14] >= 24 && counts.parted >= 3, "{counts:?}");
    });
}

/// What is told of a file and a trace: a refusal of the file, or the table and how both machines end.
fn told_of(input: &Input) -> String {
    let table = match damsonyet::place(&input.file) {
        Err(Refusal { number: 9, first, second }) => return format!("9 in {first} from {second}"),
        Err(refusal) => return format!("{} at {}", refusal.number, refusal.first),
        Ok(table) => String::from_utf8(table.text).expect("digits").trim_end().replace('\n', " "),
    };
    let both = damsonyet::run_both_from_start(&input.file, &input.trace).expect("an accepted file");
    let (plain, by_table) = (end(&both.plain), end(&both.table));
    if plain == by_table {
        format!("{table}; {plain}")
    } else {
        format!("{table}; {plain} / {by_table}")
    }
}

#[test]
fn cases_about_remainders() {
    with_stack(|| {
        let begun = Instant::now();
        let mut counts = Counts::default();
        for (input, told) in divided_by_hand() {
            assert_eq!(told_of(&input), told, "{}", input.name);
            compare(&input, &mut counts);
            compare_slots(&input);
        }
        println!("{counts:?} in {:?}", begun.elapsed());
        assert!(counts.inputs >= 24 && counts.accepted >= 10, "{counts:?}");
        assert!(counts.refused[9] >= 6 && counts.refused[15] >= 6 && counts.faults >= 6, "{counts:?}");
    });
}

#[test]
fn cases_made_for_tries() {
    with_stack(|| {
        let begun = Instant::now();
        let mut counts = Counts::default();
        for input in made_for_tries() {
            compare(&input, &mut counts);
            compare_slots(&input);
        }
        println!("{counts:?} in {:?}", begun.elapsed());
        assert!(counts.tried >= 10 && counts.chosen >= 20 && counts.false_at_start >= 3, "{counts:?}");
        assert!(counts.broken >= 20 && counts.broken_later >= 10 && counts.tried_refused >= 1, "{counts:?}");
    });
}

/// What becomes of a load: the frames with blanks between, or a refusal.
fn told_of_load(file: &[u8], ask: Ask) -> String {
    let mut buffer = vec![0; ask.room];
    match damsonyet::load_into(file, ask.seed, ask.threads, ask.wanted, &mut buffer) {
        Ok(count) => String::from_utf8(buffer[..7 * count].to_vec()).expect("lines").trim_end().replace('\n', " "),
        Err(Refusal { number: 9, first, second }) => format!("9 at {first} {second}"),
        Err(refusal) => format!("{} at {}", refusal.number, refusal.first),
    }
}

#[test]
fn cases_about_loads() {
    with_stack(|| {
        let begun = Instant::now();
        let (mut counts, mut loads) = (Counts::default(), Loads::default());
        for (input, ask, told) in loaded_by_hand() {
            assert_eq!(told_of_load(&input.file, ask), told, "{}", input.name);
            compare_load(&input, ask, &mut loads);
            compare(&input, &mut counts);
        }
        println!("{loads:?} in {:?}", begun.elapsed());
        assert!(loads.answers[0] >= 24 && loads.answers[10] >= 6 && loads.answers[16] >= 6, "{loads:?}");
        assert!(loads.whole >= 8 && loads.short >= 8 && loads.unsayable >= 2, "{loads:?}");
    });
}

#[test]
fn loads() {
    with_stack(|| {
        let begun = Instant::now();
        let mut loads = Loads::default();
        let inputs = cases(61, 250, Size::SMALL, "small").chain(cases(62, 60, Size::FULL, "full")).chain(hostile(63, 200));
        for (number, input) in inputs.enumerate() {
            let mut draws = Draws::of(64, number);
            for _ in 0..4 {
                compare_load(&input, Ask::any(&mut draws), &mut loads);
            }
        }
        println!("{loads:?} in {:?}", begun.elapsed());
        assert!(loads.answers[0] >= 300 && OF_FILE.iter().all(|&number| loads.answers[number] >= 6), "{loads:?}");
        assert!(loads.answers[10] >= 50 && loads.answers[16] >= 50, "{loads:?}");
        assert!(loads.whole >= 100 && loads.short >= 100 && loads.longest_short >= 50, "{loads:?}");
        assert!(loads.frames >= 5_000 && loads.by_sixteen >= 20, "{loads:?}");
        assert!(loads.one_less >= 10 && loads.exact >= 100 && loads.longer >= 100 && loads.unsayable >= 10, "{loads:?}");
    });
}

#[test]
fn hostile_inputs() {
    with_stack(|| {
        let begun = Instant::now();
        let mut counts = Counts::default();
        for input in hostile(44, 800) {
            compare(&input, &mut counts);
        }
        println!("{counts:?} in {:?}", begun.elapsed());
        assert!(counts.accepted >= 100 && OF_FILE.iter().all(|&number| counts.refused[number] >= 6), "{counts:?}");
        assert!([0, 11, 12, 13, 14].iter().all(|&answer| counts.runs[answer] >= 20), "{counts:?}");
        assert!(counts.most_states >= 3 && counts.longer_traces >= 3, "{counts:?}");
        assert!(counts.tried >= 100 && counts.broken_later >= 50 && counts.tried_refused >= 3, "{counts:?}");
    });
}

#[test]
fn slots_and_lent_buffers() {
    with_stack(|| {
        let begun = Instant::now();
        let inputs = cases(34, 150, Size::SMALL, "small").chain(cases(35, 50, Size::FULL, "full")).chain(hostile(36, 150));
        for input in inputs {
            compare_slots(&input);
        }
        println!("slots in {:?}", begun.elapsed());
    });
}
