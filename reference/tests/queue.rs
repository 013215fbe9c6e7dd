//! Waiters by arrival (document 02, E4): the queue worked out by hand, and as properties of both
//! machines on many drawn files and traces.

mod common;
use common::queues::{printed, runs, Queueing, Ran, WRONG, WRONG_NUMBERS};
use common::{both, both_answers, file, regions, BOX};
use reference::cases::draws::Draws;
use reference::cases::monitors::any_accepted;
use reference::cases::queued::{is_small, queued};
use reference::cases::traces::{any_frame, walk_from};
use reference::cases::{make_case, Case, Size};
use reference::frames::{frames, Frame, THREADS};
use reference::hostile::Bases;
use reference::machines::Machines;
use reference::{check, points, Answer, Machine, Place, Record};

/// The waiters by turn, each with its region. Their turns are 0, 1 and so on, and every other
/// thread has 0.
fn queue(record: &Record) -> Vec<(usize, usize)> {
    let mut queue = Vec::new();
    for thread in 0..THREADS {
        match record.places[thread] {
            Place::Waiting(region) => queue.push((record.turns[thread], thread, region)),
            _ => assert_eq!(record.turns[thread], 0, "{thread} does not wait"),
        }
    }
    queue.sort();
    for (place, (turn, thread, _)) in queue.iter().enumerate() {
        assert_eq!(usize::from(*turn), place, "the turn of {thread}");
    }
    queue.into_iter().map(|(_, thread, region)| (thread, region)).collect()
}

/// How a run ends, as in the cases made by hand.
fn end(ran: &Result<Record, Answer>) -> String {
    match ran {
        Err(answer) => format!("{} at {}", answer.number, answer.first),
        Ok(record) => {
            let values: Vec<String> = record.values.iter().map(i64::to_string).collect();
            let waiters = queue(record).into_iter().map(|(thread, at)| format!(" {thread}@{at}"));
            format!("{}:{}", values.join(","), waiters.collect::<String>())
        }
    }
}

/// Both machines end so, with no thread due.
fn both_end(file: &str, frames: &str, wanted: &str) {
    for (ran, machine) in both(file, frames).iter().zip(["plain", "table"]) {
        assert_eq!(end(ran), wanted, "{frames}, {machine}");
    }
}

/// Both machines' notified threads behind these frames.
fn notified(file: &str, frames: &str) -> [Vec<usize>; 2] {
    both(file, frames).map(|ran| {
        let record = ran.unwrap();
        (0..THREADS).filter(|thread| record.notified[*thread]).collect()
    })
}

// Of Box, region 0 puts and region 1 gets; each signals the other's guard.

#[test]
fn a_signal_picks_the_earliest_though_a_lower_number_waits() {
    assert_eq!(notified(BOX, "050100 000100 030100 010001"), [vec![0, 3, 5], vec![5]]);
    assert_eq!(notified(BOX, "000100 050100 030100 010001"), [vec![0, 3, 5], vec![0]]);
    // So at the other guard: thread 1 fills the box, and threads 4 and 2 wait to put.
    assert_eq!(notified(BOX, "010001 040000 020000 010101"), [vec![2, 4], vec![4]]);
}

#[test]
fn waiters_resume_by_arrival() {
    let waits = "050100 000100 030100 010001";
    both_end(BOX, &format!("{waits} 050101"), "0: 0@1 3@1");
    both_end(BOX, &format!("{waits} 000101"), "14 at 4");
    both_end(BOX, &format!("{waits} 030101"), "14 at 4");
    let second = format!("{waits} 050101 010001");
    both_end(BOX, &format!("{second} 000101"), "0: 3@1");
    both_end(BOX, &format!("{second} 030101"), "14 at 6");
    both_end(BOX, &format!("{second} 000101 010001 030101"), "0:");
}

#[test]
fn a_signal_picks_the_earliest_though_it_is_notified_already() {
    // Thread 5 is told, thread 7 gets before it, thread 1 puts again: thread 5 has one notice,
    // and the table's machine has told nobody else.
    let twice = "050100 000100 010001 070101 010001";
    assert_eq!(notified(BOX, twice), [vec![0, 5], vec![5]]);
    // It runs on its one notice, and the next put tells thread 0.
    let after = format!("{twice} 050101 010001");
    assert_eq!(notified(BOX, &after), [vec![0], vec![0]]);
    both_end(BOX, &format!("{after} 000101"), "0:");
    // Used up by a recheck, the notice comes again with the next put.
    let again = "050100 000100 010001 070101 050100";
    assert_eq!(notified(BOX, again), [vec![0], vec![]]);
    assert_eq!(notified(BOX, &format!("{again} 010001")), [vec![0, 5], vec![5]]);
    both_end(BOX, &format!("{again} 010001 050101"), "0: 0@1");
}

#[test]
fn a_recheck_keeps_its_place() {
    // Thread 9 waits, is told, finds nothing and rechecks; thread 4 has come before the recheck,
    // thread 2 comes behind it.
    let rechecked = "090100 010001 070101 040100 090100 020100";
    both_end(BOX, rechecked, "0: 9@1 4@1 2@1");
    assert_eq!(notified(BOX, &format!("{rechecked} 010001")), [vec![2, 4, 9], vec![9]]);
    both_end(BOX, &format!("{rechecked} 010001 090101"), "0: 4@1 2@1");
    both_end(BOX, &format!("{rechecked} 010001 040101"), "14 at 7");
}

/// Regions 0 and 1 are one method, which anyone may begin and which then takes; region 2 takes
/// and region 3 puts.
fn walk() -> String {
    let [take, put] = ["waituntil (x == 1) { x := 0; }", "waituntil (x == 0) { x := 1; }"];
    regions("true", &[&format!("waituntil (true) {{ }} {take}"), take, put])
}

#[test]
fn a_due_thread_that_gets_00_goes_to_the_back() {
    let file = walk();
    // While it is due it has no turn and stands in no queue.
    for record in both(&file, "080200 000001") {
        let record = record.unwrap();
        assert_eq!((record.places[0], queue(&record)), (Place::Due(1), vec![(8, 2)]));
    }
    let waits = "080200 000001 000100 030200";
    both_end(&file, waits, "0: 8@2 0@1 3@2");
    both_end(&file, &format!("{waits} 050301 080201"), "0: 0@1 3@2");
    both_end(&file, &format!("{waits} 050301 000101"), "14 at 5");
    both_end(&file, &format!("{waits} 050301 080201 050301 000101"), "0: 3@2");
}

#[test]
fn one_that_resumes_and_must_wait_again_goes_to_the_back() {
    let [take, put] = ["waituntil (x == 1) { x := 0; }", "waituntil (x == 0) { x := 1; }"];
    let twice = regions("true", &[&format!("{take} {take}"), put]);
    let again = "060000 020000 010201 060001 060100";
    both_end(&twice, again, "0: 2@0 6@1");
    both_end(&twice, &format!("{again} 010201 060101"), "14 at 6");
    both_end(&twice, &format!("{again} 010201 020001 020100 010201 060101"), "0: 2@1");
}

#[test]
fn one_that_is_due_or_idle_and_need_not_wait_leaves_the_queue_as_it_is() {
    // Thread 8 is told, and thread 0 takes it, due or idle; thread 8 may recheck.
    let file = walk();
    both_end(&file, "080200 030200 050301 000001 000101 080200", "0: 8@2 3@2");
    both_end(&file, "080200 030200 050301 000201 080200", "0: 8@2 3@2");
}

#[test]
fn turns_close_up() {
    let turns = |frames: &str| both(BOX, frames).map(|ran| ran.unwrap().turns[..5].to_vec());
    let waits = "030100 000100 040100 010100";
    assert_eq!(turns(waits), [[1, 3, 0, 0, 2]; 2]);
    assert_eq!(turns(&format!("{waits} 020001")), [[1, 3, 0, 0, 2]; 2]);
    // Thread 3 leaves, then thread 0.
    let one = format!("{waits} 020001 030101");
    assert_eq!(turns(&one), [[0, 2, 0, 0, 1]; 2]);
    let two = format!("{one} 020001 000101");
    assert_eq!(turns(&two), [[0, 1, 0, 0, 0]; 2]);
    // Who comes back is behind.
    assert_eq!(turns(&format!("{two} 000100 030100")), [[2, 1, 0, 3, 0]; 2]);
}

/// Region 0 waits for x and region 1 for y; region 2 sets x and region 3 sets y.
fn two_guards() -> String {
    file(
        "var x = 0 in 0..1; var y = 0 in 0..1;",
        "true",
        "method a { waituntil (x == 1) { x := 0; } } method b { waituntil (y == 1) { y := 0; } }
         method c { waituntil (true) { x := 1; } } method d { waituntil (true) { y := 1; } }",
    )
}

#[test]
fn turns_count_over_all_guards() {
    let file = two_guards();
    let waits = "060000 040100 020000 000100";
    both_end(&file, waits, "0,0: 6@0 4@1 2@0 0@1");
    // On a guard the earliest there is first, whoever waits on the other.
    assert_eq!(notified(&file, &format!("{waits} 080301")), [vec![0, 4], vec![4]]);
    both_end(&file, &format!("{waits} 080301 040101"), "0,0: 6@0 2@0 0@1");
    both_end(&file, &format!("{waits} 080301 000101"), "14 at 5");
    // Both guards hold, and the first of the second guard goes before that of the first.
    let both_set = format!("{waits} 080201 080301 040101");
    both_end(&file, &both_set, "1,0: 6@0 2@0 0@1");
    both_end(&file, &format!("{both_set} 060001 040100"), "0,0: 2@0 0@1 4@1");
}

#[test]
fn one_queue_for_regions_that_share_a_guard() {
    let [take, put] = ["waituntil (x == 1) { x := 0; }", "waituntil (x == 0) { x := 1; }"];
    let shared = regions("true", &[take, "waituntil (x == 01) { x := 0; }", put]);
    let waits = "030100 000000 020100";
    both_end(&shared, waits, "0: 3@1 0@0 2@1");
    assert_eq!(notified(&shared, &format!("{waits} 050201")), [vec![0, 2, 3], vec![3]]);
    both_end(&shared, &format!("{waits} 050201 000001"), "14 at 4");
    both_end(&shared, &format!("{waits} 050201 030101 050201 000001"), "0: 2@1");
    both_end(&shared, &format!("{waits} 050201 030101 050201 020101"), "14 at 6");
}

#[test]
fn whoever_leaves_the_others_keep_their_order() {
    // Four wait, each on its own guard, so that any of them can leave.
    let names = ["a", "b", "c", "d"];
    let variables = names.map(|name| format!("var {name} = 0 in 0..1; ")).concat();
    let takes = names.map(|n| format!("method m{n} {{ waituntil ({n} == 1) {{ {n} := 0; }} }} "));
    let sets = names.map(|n| format!("method s{n} {{ waituntil (true) {{ {n} := 1; }} }} "));
    let file = file(&variables, "true", &(takes.concat() + &sets.concat()));
    let order = [11, 2, 7, 0];
    let waits: Vec<String> =
        order.iter().enumerate().map(|(at, thread)| format!("{thread:02X}{at:02X}00")).collect();
    for (leaving, thread) in order.iter().enumerate() {
        let frames =
            format!("{} 05{:02X}01 {thread:02X}{leaving:02X}01", waits.join(" "), leaving + 4);
        for ran in both(&file, &frames) {
            let mut left: Vec<(usize, usize)> =
                order.iter().enumerate().map(|(at, thread)| (*thread, at)).collect();
            left.remove(leaving);
            assert_eq!(queue(&ran.unwrap()), left, "{thread} leaves");
        }
    }
}

#[test]
fn sixteen_waiters() {
    // All wait on a guard that never holds: the turns are 15 to 0.
    let never = regions("true", &["waituntil (x == 1) { }"]);
    let waits: String = (0..THREADS).rev().map(|thread| format!("{thread:02X}0000 ")).collect();
    for ran in both(&never, &waits) {
        let wanted: [u8; THREADS] = std::array::from_fn(|thread| 15 - thread as u8);
        assert_eq!(ran.unwrap().turns, wanted);
    }
    // Fifteen wait to get and thread 15, which put, waits to put: each that gets lets it put
    // again, and behind it the next one gets.
    let order = [9, 4, 14, 1, 0, 7, 12, 3, 13, 6, 11, 2, 8, 10, 5];
    let mut frames: String = order.iter().map(|thread| format!("{thread:02X}0100 ")).collect();
    frames += "0F0001 0F0000";
    for (gone, thread) in order.iter().enumerate() {
        for later in &order[gone + 1..] {
            let refused = format!("{frames} {later:02X}0101");
            assert_eq!(both_answers(BOX, &refused), [(14, 17 + 3 * gone); 2]);
        }
        frames += &format!(" {thread:02X}0101 0F0001 0F0000");
        let left = order[gone + 1..].iter().map(|thread| (*thread, 1)).chain([(15, 0)]);
        for ran in both(BOX, &frames) {
            assert_eq!(queue(&ran.unwrap()), left.clone().collect::<Vec<_>>());
        }
    }
}

/// The cases made by hand end as was worked out; there are enough of them, and of small ones.
#[test]
fn cases_made_for_queues() {
    let queued = queued();
    for one in &queued {
        let frames = String::from_utf8(one.case.trace.clone()).unwrap();
        let file = String::from_utf8(one.case.monitor.clone()).unwrap();
        let ends = both(&file, &frames).each_ref().map(end);
        let wanted = one.ends.split_once(" / ").unwrap_or((&one.ends, &one.ends));
        assert_eq!((ends[0].as_str(), ends[1].as_str()), wanted, "{}", one.what);
    }
    assert!(queued.len() >= 36);
    assert!(queued.iter().filter(|one| is_small(&one.case)).count() >= 14);
    let mut names: Vec<&str> = queued.iter().map(|one| one.what).collect();
    names.sort();
    names.dedup();
    assert_eq!(names.len(), queued.len());
}

/// Each of them tells some wrong program by what that would print, or by its points; and each
/// wrong program is told by three of them, by its lines if it chooses wrongly at all.
#[test]
fn cases_made_for_queues_tell_wrong_programs() {
    let mut by_lines = [0; WRONG.len()];
    let mut by_points = [0; WRONG.len()];
    for one in queued() {
        let told = |queueing| printed(&one.case.monitor, &one.case.trace, queueing).unwrap();
        let right = told(Queueing::Right);
        let wrong = WRONG.map(told);
        assert!(wrong.iter().any(|wrong| *wrong != right), "{}", one.what);
        for (number, wrong) in wrong.iter().enumerate() {
            by_lines[number] += usize::from(wrong.0 != right.0);
            by_points[number] += usize::from(*wrong != right);
        }
    }
    for (number, wrong) in WRONG.iter().enumerate() {
        let is_shown_by_lines = !WRONG_NUMBERS.contains(wrong);
        assert!(by_points[number] >= 3, "{wrong:?}");
        assert_eq!(by_lines[number] >= 3, is_shown_by_lines, "{wrong:?} {}", by_lines[number]);
    }
}

/// How many cases have a file and a trace that are not refused as a whole, and of how many of
/// those a program that goes by number prints other lines.
fn by_number(cases: impl Iterator<Item = Case>) -> (usize, usize) {
    let (mut judged, mut differ) = (0, 0);
    for Case { monitor, trace } in cases {
        if let Some(right) = printed(&monitor, &trace, Queueing::Right) {
            let other = printed(&monitor, &trace, Queueing::ByNumber).unwrap();
            judged += 1;
            differ += usize::from(right.0 != other.0);
        }
    }
    (judged, differ)
}

/// Drawn cases meet the request: of a good share number and arrival make a difference.
#[test]
fn drawn_traces_tell_number_from_arrival() {
    let (judged, differ) = by_number((0..400).map(|n| make_case(81, n, Size::FULL)));
    assert!(100 * differ >= 40 * judged, "full: {differ} of {judged}");
    let (judged, differ) = by_number((0..600).map(|n| make_case(82, n, Size::SMALL)));
    assert!(100 * differ >= 30 * judged, "small: {differ} of {judged}");
    let mut bases = Bases::of(83);
    let (judged, differ) = by_number((0..900).map(|n| bases.input(n)));
    assert!(100 * differ >= 15 * judged, "hostile: {differ} of {judged}");
}

/// The machine that can be wrong, kept rightly, has at each point what `points` gives there.
#[test]
fn the_right_queue_is_that_of_the_points() {
    let mut compared = 0;
    for number in 0..300 {
        let Case { monitor, trace } = make_case(84, number, Size::SMALL);
        let Ok(checked) = check(&monitor) else { continue };
        let Ok(frames) = frames(&trace) else { continue };
        let start = checked.start_number();
        let machines = Machines::of(checked);
        let values = machines.monitor.start_values();
        let [plain, table] = runs(&machines, &values, &frames, Queueing::Right);
        let mut buffer = vec![0; 49 * (frames.len() + 1)];
        let given = points(&monitor, &trace, start, &mut buffer);
        let refusal = |ran: &Ran| ran.refusal.map_or(Ok(()), |(n, at)| Err(Answer::at(n, at)));
        assert_eq!((given.plain, given.table), (refusal(&plain), refusal(&table)));
        assert_eq!(given.count, plain.points.len());
        for (number, (point, shown)) in buffer.chunks(49).zip(&plain.points).enumerate() {
            let bits = |at: usize| u16::from_le_bytes([point[at], point[at + 1]]);
            let set = |notified: [bool; THREADS]| -> u16 {
                (0..THREADS).filter(|thread| notified[*thread]).map(|thread| 1 << thread).sum()
            };
            assert_eq!(point[6..22], shown.places.map(|place| place.byte()));
            assert_eq!(bits(24), set(shown.notified));
            assert_eq!(bits(29), table.points.get(number).map_or(0, |shown| set(shown.notified)));
            assert_eq!(point[33..49], shown.turns);
            compared += 1;
        }
    }
    assert!(compared > 1000, "{compared}");
}

// What the frames alone tell of a list that a machine accepts: a thread waits while the last frame
// it sent has 00.

/// The threads that wait behind these frames, by the frame with which each began: the first with
/// 00 behind its last with 01.
fn waiters_by_frames(frames: &[Frame]) -> Vec<usize> {
    let mut began: Vec<(usize, usize)> = Vec::new();
    for thread in 0..THREADS {
        let own = |index: &usize| frames[*index].thread == thread;
        let last_run = (0..frames.len()).filter(own).rfind(|index| frames[*index].flag);
        let behind = last_run.map_or(0, |index| index + 1);
        if let Some(first) = (behind..frames.len()).find(own) {
            began.push((first, thread));
        }
    }
    began.sort();
    began.into_iter().map(|(_, thread)| thread).collect()
}

/// Whether a frame's thread waited before it.
fn waited(frames: &[Frame], index: usize) -> bool {
    let mut before = frames[..index].iter().rev();
    before.find(|other| other.thread == frames[index].thread).is_some_and(|last| !last.flag)
}

/// How often things were met, so that the properties are known not to be empty.
#[derive(Default, Debug)]
struct Met {
    points: usize,
    most_waiting: usize,
    /// Resumptions that were awaited from a point with so many ahead: 0, 1, 2, more.
    resumed: [usize; 4],
    never_resumed: usize,
    /// Frames between such a point and the resumption: rechecks on the guard; runs of threads on
    /// the guard that did not wait; threads that came to wait there.
    rechecks: usize,
    passed: usize,
    came: usize,
    due_arrivals: usize,
    out_of_number: usize,
}

/// Turns and resumptions on one machine's run of a list, as far as the machine accepts.
fn queue_holds(machines: &Machines, start: &Record, list: &[Frame], machine: Machine, m: &mut Met) {
    let mut records = vec![start.clone()];
    for frame in list {
        match machines.step(records.last().unwrap(), *frame, machine) {
            Ok(next) => records.push(next),
            Err(_) => break,
        }
    }
    let frames = &list[..records.len() - 1];
    let guard_of = |frame: &Frame| machines.monitor.regions[frame.region].guard;
    let mut queues: Vec<Vec<usize>> = Vec::new();
    for (point, record) in records.iter().enumerate() {
        // Turns are 0, 1 and so on, in the order in which the waiters began.
        let queue: Vec<usize> = queue(record).into_iter().map(|(thread, _)| thread).collect();
        assert_eq!(queue, waiters_by_frames(&frames[..point]), "point {point}");
        m.points += 1;
        m.most_waiting = m.most_waiting.max(queue.len());
        m.out_of_number += usize::from(!queue.is_sorted());
        queues.push(queue);
    }
    for (point, queue) in queues.iter().enumerate() {
        for (place, thread) in queue.iter().enumerate() {
            let guard_at = |other: usize| match records[point].places[other] {
                Place::Waiting(region) => machines.monitor.regions[region].guard,
                _ => unreachable!("it waits"),
            };
            let guard = guard_at(*thread);
            let ahead: Vec<usize> =
                queue[..place].iter().copied().filter(|other| guard_at(*other) == guard).collect();
            // Who resumes on the guard from here on, up to the thread itself.
            let mut resumed = Vec::new();
            let mut does_resume = false;
            for (index, frame) in frames.iter().enumerate().skip(point) {
                let on_guard = guard_of(frame) == guard;
                let waited = waited(frames, index);
                if frame.thread == *thread && frame.flag {
                    does_resume = true;
                    break;
                } else if on_guard && frame.flag && waited {
                    resumed.push(frame.thread);
                }
                m.rechecks += usize::from(on_guard && !frame.flag && waited);
                m.passed += usize::from(on_guard && frame.flag && !waited);
                m.came += usize::from(on_guard && !frame.flag && !waited);
            }
            if does_resume {
                assert_eq!(resumed, ahead, "{thread} from point {point}");
                m.resumed[ahead.len().min(3)] += 1;
            } else {
                // Until it does, those who have resumed are the first of them.
                assert!(ahead.starts_with(&resumed), "{thread} from point {point}");
                m.never_resumed += 1;
            }
        }
    }
    for (index, frame) in frames.iter().enumerate() {
        let was_due = matches!(records[index].places[frame.thread], Place::Due(_));
        m.due_arrivals += usize::from(was_due && !frame.flag);
    }
}

fn property(seed: u64, monitors: usize, size: Size, most_states: usize) -> Met {
    let mut met = Met::default();
    for case in 0..monitors {
        let mut draws = Draws::of(seed, case);
        let machines = any_accepted(&mut draws, size).machines;
        for (number, _) in machines.monitor.kept_states().into_iter().take(most_states) {
            let start = machines.start(number).unwrap();
            for walker in [Machine::Plain, Machine::Table] {
                let count = draws.count(0, 50);
                let walked = walk_from(&mut draws, &machines, walker, count, start.clone());
                let mut frames = walked.frames;
                for _ in 0..2 {
                    for machine in [Machine::Plain, Machine::Table] {
                        queue_holds(&machines, &start, &frames, machine, &mut met);
                    }
                    let place = draws.count(0, frames.len());
                    frames.insert(place, any_frame(&mut draws, &machines));
                }
            }
        }
    }
    met
}

fn is_met(met: &Met, least: usize) {
    assert!(met.resumed.iter().all(|count| *count > least), "{met:?}");
    let others = [met.rechecks, met.passed, met.came, met.due_arrivals, met.out_of_number];
    assert!(others.iter().all(|count| *count > least), "{met:?}");
    assert!(met.never_resumed > least && met.most_waiting > 8, "{met:?}");
}

#[test]
fn small_monitors_from_every_kept_state() {
    is_met(&property(85, 300, Size::SMALL, usize::MAX), 500);
}

#[test]
fn large_monitors() {
    is_met(&property(86, 200, Size::FULL, 8), 500);
}

/// Long lists, in which threads come back many times.
#[test]
fn long_lists() {
    let mut met = Met::default();
    for case in 0..24 {
        let mut draws = Draws::of(87, case);
        let machines = any_accepted(&mut draws, Size::SMALL).machines;
        let start = machines.start(machines.monitor.start_number()).unwrap();
        let frames = walk_from(&mut draws, &machines, Machine::Table, 400, start.clone()).frames;
        for machine in [Machine::Plain, Machine::Table] {
            queue_holds(&machines, &start, &frames, machine, &mut met);
        }
    }
    is_met(&met, 20);
}
