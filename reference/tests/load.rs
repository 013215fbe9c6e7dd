//! A repeatable load (document 02, E6): worked out by hand, and as properties on many drawn files.

mod common;
use common::loads::{given, Loading, BEFORE, WRONG};
use common::{file, places, regions, trace, BOX};
use reference::cases::asks::Ask;
use reference::cases::draws::Draws;
use reference::cases::loaded::{is_small, loaded, Loaded};
use reference::cases::monitors::any_accepted;
use reference::cases::{make_case, Size};
use reference::frames::{frames, Frame, THREADS};
use reference::hostile::Bases;
use reference::load::{self, draw, load, next};
use reference::machines::Machines;
use reference::{check, run, Machine};

/// The answer, the count, and every byte of a buffer that holds A5 before.
fn loads(file: &[u8], ask: Ask) -> ((u8, usize, usize), usize, Vec<u8>) {
    let mut buffer = vec![BEFORE; ask.room];
    let made = load(file, ask.seed, ask.threads, ask.wanted, &mut buffer);
    (places(made.answer), made.count, buffer)
}

fn ask(seed: u32, threads: usize, wanted: usize, room: usize) -> Ask {
    Ask { seed, threads, wanted, room }
}

/// These frames are made where there is room for just the wanted ones.
fn makes(file: &str, seed: u32, threads: usize, wanted: usize, frames: &str) {
    let room = 7 * wanted;
    let mut buffer = trace(frames);
    let count = buffer.len() / 7;
    buffer.resize(room, BEFORE);
    let asked = ask(seed, threads, wanted, room);
    assert_eq!(loads(file.as_bytes(), asked), ((0, 0, 0), count, buffer), "{asked:?}");
}

/// It is refused, nothing is made, and every byte is kept.
fn refuses(file: &str, ask: Ask, number: u8) {
    let kept = vec![BEFORE; ask.room];
    assert_eq!(loads(file.as_bytes(), ask), ((number, 0, 0), 0, kept), "{ask:?}");
}

#[test]
fn the_number_and_its_draws() {
    // 1013904223; times 1664525 plus itself is 1687668854880398, less 392940 times 2^32 is
    // 1196435762.
    assert_eq!(next(0), 0x3C6E_F35F);
    assert_eq!(next(0x3C6E_F35F), 0x4750_2932);
    assert_eq!(next(0x4750_2932), 0xD1CC_F6E9);
    assert_eq!(next(1), 0x3C88_596C);
    assert_eq!(next(u32::MAX), 0x3C55_8D52);
    assert_eq!([0, 0xFFFF, 0x1_0000, 0x4750_2932, u32::MAX].map(draw), [0, 0, 1, 0x4750, 0xFFFF]);
}

#[test]
fn one_thread_at_the_box() {
    makes(BOX, 0, 1, 2, "000001 000000");
    makes(BOX, 0, 1, 1, "000001");
    // It waits to put, and nobody gets: the run ends.
    makes(BOX, 0, 1, 3, "000001 000000");
    makes(BOX, 2, 1, 3, "000100");
    makes(BOX, 4, 1, 9, "000001 000101 000100");
}

#[test]
fn threads_are_numbered_from_0() {
    for threads in 1..=THREADS {
        // The last frame of the list is the last thread's at the last region.
        let last = (0..).find(|seed| draw(next(*seed)) % (2 * threads) == 2 * threads - 1).unwrap();
        makes(BOX, last, threads, 1, &format!("{:02X}0100", threads - 1));
        let first = (0..).find(|seed| draw(next(*seed)) % (2 * threads) == 0).unwrap();
        makes(BOX, first, threads, 1, "000001");
    }
    for threads in [0, 17, 18, 32, 255, 256, 257, 65_537, (1 << 32) + 1, 1 << 63, usize::MAX] {
        refuses(BOX, ask(0, threads, 3, 21), 16);
    }
}

#[test]
fn by_thread_and_then_region() {
    let three = regions("true", &["waituntil (true) { }"; 3]);
    let machines = Machines::of(check(three.as_bytes()).unwrap());
    let start = machines.start(0).unwrap();
    let listed: Vec<(usize, usize)> =
        load::allowed(&machines, &start, 3).iter().map(|f| (f.thread, f.region)).collect();
    assert_eq!(listed, [(0, 0), (0, 1), (0, 2), (1, 0), (1, 1), (1, 2), (2, 0), (2, 1), (2, 2)],);
    // Each of them is the one that is drawn, from some seed.
    for (index, (thread, region)) in listed.into_iter().enumerate() {
        let seed = (0..).find(|seed| draw(next(*seed)) % 9 == index).unwrap();
        makes(&three, seed, 3, 1, &format!("{thread:02X}{region:02X}01"));
    }
}

#[test]
fn a_lone_frame_spends_a_draw() {
    // 3CD4, A431, 8EF1, D0E0: even, odd, odd, even; the second is spent on the due thread.
    let stay = "waituntil (true) { }";
    let walk = regions("true", &[&format!("{stay} {stay}"), stay]);
    makes(&walk, 4, 1, 4, "000001 000101 000201 000001");
    // The last of those who come to wait has no choice: 3C6E, 4750, D1CC.
    let never = regions("true", &["waituntil (x == 1) { }"]);
    makes(&never, 0, 3, 9, "020000 000000 010000");
}

#[test]
fn rechecks_are_left_out() {
    // Thread 0 waits and is told, thread 1 gets and waits: thread 0 might recheck.
    let four = "000100 010001 010101 010100";
    makes(BOX, 2, 2, 9, four);
    let recheck = trace(&format!("{four} 000100"));
    assert!(run(BOX.as_bytes(), &recheck, 0, Machine::Plain).is_ok());
}

#[test]
fn sixteen_comes_before_all() {
    let long = " ".repeat(8193);
    for threads in [0, 17, usize::MAX] {
        refuses(&long, ask(0, threads, 0, 0), 16);
        refuses("", ask(0, threads, 1, 7), 16);
        refuses(BOX, ask(0, threads, 1, 6), 16);
        refuses(BOX, ask(0, threads, usize::MAX, 6), 16);
        refuses(BOX, ask(0, threads, 0, 0), 16);
    }
    refuses(&long, ask(0, 1, 0, 0), 1);
    refuses(&long, ask(0, 16, usize::MAX, 0), 1);
    refuses("", ask(0, 1, 1, 6), 4);
}

#[test]
fn ten_goes_by_the_wanted_count() {
    makes(BOX, 0, 1, 20, "000001 000000");
    refuses(BOX, ask(0, 1, 20, 139), 10);
    refuses(BOX, ask(0, 1, 3, 20), 10);
    refuses(BOX, ask(0, 1, 1, 6), 10);
    refuses(BOX, ask(0, 1, 1, 0), 10);
    makes(BOX, 0, 1, 0, "");
    // Products that 64 or 32 bits do not hold, and what is left of them is little.
    for wanted in [usize::MAX / 7, usize::MAX / 7 + 1, u32::MAX as usize / 7 + 1, 1 << 32, 1 << 61]
    {
        for room in [0, 5, 7, 14, 140] {
            refuses(BOX, ask(0, 1, wanted, room), 10);
        }
    }
    refuses(BOX, ask(0, 1, usize::MAX, 140), 10);
}

#[test]
fn the_bytes_behind_are_kept() {
    for room in 21..40 {
        let mut buffer = trace("000001 000101 000100");
        buffer.resize(room, BEFORE);
        assert_eq!(loads(BOX.as_bytes(), ask(4, 1, 3, room)), ((0, 0, 0), 3, buffer));
    }
    let mut buffer = trace("000001");
    buffer.extend([BEFORE; 8]);
    assert_eq!(loads(BOX.as_bytes(), ask(4, 1, 1, 15)), ((0, 0, 0), 1, buffer));
    assert_eq!(loads(BOX.as_bytes(), ask(4, 1, 0, 3)), ((0, 0, 0), 0, vec![BEFORE; 3]));
}

#[test]
fn the_run_begins_at_the_start_values() {
    let from_2 = file(
        "var x = 2 in 0..3;",
        "true",
        "method a { waituntil (x == 2) { x := 0; } } method b { waituntil (x == 0) { } }",
    );
    // Even: region 0, which holds at 2 alone.
    makes(&from_2, 0, 1, 1, "000001");
    // Odd: region 1, which does not hold.
    makes(&from_2, 2, 1, 1, "000100");
}

/// The cases made by hand are as was worked out, and there are enough of them, and of small ones.
#[test]
fn cases_made_for_loads() {
    let loaded = loaded();
    for one in &loaded {
        let (answer, count, buffer) = loads(&one.file, one.ask);
        let told = match answer {
            (0, 0, 0) => {
                let lines = String::from_utf8(buffer[..7 * count].to_vec()).unwrap();
                lines.trim_end().replace('\n', " ")
            }
            (9, region, state) => format!("9 at {region} {state}"),
            (number, place, _) => format!("{number} at {place}"),
        };
        assert_eq!(told, one.told, "{}", one.what);
        assert!(buffer[7 * count..].iter().all(|byte| *byte == BEFORE), "{}", one.what);
    }
    assert!(loaded.len() >= 48);
    assert!(loaded.iter().filter(|one| one.told.contains("at")).count() >= 24);
    assert!(loaded.iter().filter(|one| is_small(one)).count() >= 24);
    let mut names: Vec<&str> = loaded.iter().map(|one| one.what).collect();
    names.sort();
    names.dedup();
    assert_eq!(names.len(), loaded.len());
}

/// Each wrong program is told from the right one by two of them, by what it gives or writes.
#[test]
fn cases_made_for_loads_tell_wrong_programs() {
    let mut told = [0; WRONG.len()];
    for Loaded { what, file, ask, .. } in loaded() {
        let right = given(&file, ask, Loading::Right);
        assert_eq!(loads(&file, ask), right, "{what}");
        for (number, wrong) in WRONG.into_iter().enumerate() {
            told[number] += usize::from(given(&file, ask, wrong) != right);
        }
    }
    let few: Vec<Loading> = (0..WRONG.len()).filter(|n| told[*n] < 2).map(|n| WRONG[n]).collect();
    assert!(few.is_empty(), "told by fewer than two: {few:?}");
}

/// The small ones, which are closed by computation, tell them as well, but for those that show only
/// in large files or longer runs.
#[test]
fn small_cases_tell_wrong_programs() {
    let small: Vec<Loaded> = loaded().into_iter().filter(is_small).collect();
    let is_told = |wrong: &Loading| {
        small.iter().any(|one| {
            given(&one.file, one.ask, *wrong) != given(&one.file, one.ask, Loading::Right)
        })
    };
    let missed: Vec<Loading> = WRONG.into_iter().filter(|wrong| !is_told(wrong)).collect();
    assert_eq!(missed, [Loading::SixteenAfterOne]);
}

/// The accepted asks beside the files of drawn cases and of hostile inputs, with what is made.
fn drawn_loads() -> Vec<(Vec<u8>, Ask, Vec<Frame>)> {
    let mut bases = Bases::of(93);
    let small = (0..160).map(|number| make_case(91, number, Size::SMALL));
    let full = (0..60).map(|number| make_case(92, number, Size::FULL));
    let hostile: Vec<_> = (0..160).map(|number| bases.input(number)).collect();
    let mut drawn = Vec::new();
    for case in small.chain(full).chain(hostile) {
        let ask = Ask::beside(&case);
        let made = load::frames(&case.monitor, ask.seed, ask.threads, ask.wanted, ask.room);
        if let Ok(frames) = made {
            drawn.push((case.monitor, ask, frames));
        }
    }
    drawn
}

/// Every trace so made is accepted by both machines; each frame stood in the list where the draw
/// says; and a run ends early only where nothing but rechecks is allowed.
#[test]
fn what_holds_of_every_load() {
    let (mut made, mut early, mut rechecks, mut resumed) = (0, 0, 0, 0);
    for (file, ask, frames) in drawn_loads() {
        let machines = Machines::of(check(&file).unwrap());
        let start = machines.monitor.start_number();
        let lines = reference::frames::trace_of(&frames);
        for machine in [Machine::Plain, Machine::Table] {
            assert!(machines.run(&lines, start, machine).is_ok(), "{machine:?} {ask:?}");
        }
        let mut record = machines.start(start).unwrap();
        let mut number = ask.seed;
        for frame in &frames {
            let allowed = load::allowed(&machines, &record, ask.threads);
            number = next(number);
            assert_eq!(allowed[draw(number) % allowed.len()], *frame);
            let key = |frame: &Frame| (frame.thread, frame.region);
            assert!(allowed.windows(2).all(|pair| key(&pair[0]) < key(&pair[1])));
            assert!(frame.thread < ask.threads && (frame.flag || !record.is_waiting(frame.thread)));
            resumed += usize::from(record.is_waiting(frame.thread));
            record = machines.step(&record, *frame, Machine::Plain).unwrap();
        }
        made += frames.len();
        if frames.len() < ask.wanted {
            early += 1;
            for thread in 0..ask.threads {
                for region in 0..256 {
                    for flag in [false, true] {
                        let frame = Frame { thread, region, flag };
                        if machines.step(&record, frame, Machine::Plain).is_ok() {
                            assert!(record.is_waiting(thread) && !flag, "{frame:?}");
                            rechecks += 1;
                        }
                    }
                }
            }
        } else {
            assert_eq!(frames.len(), ask.wanted);
        }
    }
    assert!(
        made > 2000 && early > 20 && rechecks > 5 && resumed > 100,
        "{made} {early} {rechecks} {resumed}"
    );
}

/// The other program, kept rightly, gives the same beside drawn cases and hostile inputs.
#[test]
fn drawn_loads_are_the_same() {
    let mut answers = [0; 17];
    let mut bases = Bases::of(94);
    let small = (0..240).map(|number| make_case(95, number, Size::SMALL));
    let hostile: Vec<_> = (0..240).map(|number| bases.input(number)).collect();
    for case in small.chain(hostile) {
        let ask = Ask::beside(&case);
        let first = loads(&case.monitor, ask);
        assert_eq!(first, given(&case.monitor, ask, Loading::Right), "{ask:?}");
        answers[usize::from(first.0 .0)] += 1;
    }
    for (number, count) in answers.iter().enumerate() {
        let least = match number {
            0 => 150,
            11..=14 => 0,
            10 | 16 => 30,
            _ => 3,
        };
        assert!(*count >= least && (least > 0 || *count == 0), "{number}: {count}");
    }
}

/// The first frames of a longer load are those of a shorter one; with more threads than ever come,
/// others may be made.
#[test]
fn a_longer_load_begins_with_a_shorter_one() {
    let mut draws = Draws::of(96, 0);
    for seed in 0..40 {
        let drawn = any_accepted(&mut draws, Size::SMALL);
        let made = |wanted| load::frames(&drawn.file, seed, 5, wanted, 7 * wanted).unwrap();
        let long = made(30);
        for wanted in 0..30 {
            assert_eq!(made(wanted), long[..wanted.min(long.len())]);
        }
    }
}

/// What `frames` reads of the lines is what was made.
#[test]
fn the_lines_are_frames() {
    let mut buffer = [0; 700];
    let made = load(BOX.as_bytes(), 7, 16, 100, &mut buffer);
    let lines = &buffer[..7 * made.count];
    assert_eq!(frames(lines), load::frames(BOX.as_bytes(), 7, 16, 100, 700));
}

#[test]
fn asks_are_read_as_they_are_written() {
    let ask = Ask { seed: u32::MAX, threads: 0, wanted: usize::MAX, room: 7 };
    assert_eq!(ask.text(), "4294967295 0 18446744073709551615 7\n");
    assert_eq!(Ask::parsed(&ask.text()), Some(ask));
    for bad in ["", "1 2 3", "1 2 3 4 5", "4294967296 1 1 7", "a 1 1 7"] {
        assert_eq!(Ask::parsed(bad), None);
    }
}
