//! Every point of a run: `points` on traces worked out by hand, and as a property
//! beside runs of the first lines.

mod common;
use common::{file, places, regions, trace, BOX};
use reference::cases::{make_case, Case, Size};
use reference::hostile::Bases;
use reference::lines::{points_lines, replay_points};
use reference::machines::Machines;
use reference::{check, points, Answer, Machine, Place, Points, Record};

/// What a buffer holds before the call.
const BEFORE: u8 = 0xA5;

/// The call with a buffer of so many bytes, and the buffer afterwards.
fn call(file: impl AsRef<[u8]>, trace: &[u8], start: usize, length: usize) -> (Points, Vec<u8>) {
    let mut buffer = vec![BEFORE; length];
    let given = points(file.as_ref(), trace, start, &mut buffer);
    (given, buffer)
}

/// Both answers, each as its number and first place; the second is never used.
fn answers(given: Points) -> [(u8, usize); 2] {
    [given.plain, given.table].map(|answer| {
        let (number, first, second) = places(answer);
        assert_eq!(second, 0);
        (number, first)
    })
}

/// Calls with room for five points more, wants these answers and points, each given as
/// digits with blanks between its parts, and all bytes behind them kept.
fn wants(file: &str, frames: &str, start: usize, both: [(u8, usize); 2], points: &[&str]) {
    let trace = trace(frames);
    let (given, buffer) = call(file, &trace, start, 49 * (trace.len() / 7 + 6));
    assert_eq!(answers(given), both, "{frames}");
    assert_eq!(given.count, points.len(), "{frames}");
    let (written, behind) = buffer.split_at(49 * points.len());
    for (number, (point, wanted)) in written.chunks(49).zip(points).enumerate() {
        let digits: String = point.iter().map(|byte| format!("{byte:02X}")).collect();
        assert_eq!(digits, wanted.replace(' ', ""), "{frames}, point {number}");
    }
    assert!(behind.iter().all(|byte| *byte == BEFORE), "{frames}");
}

/// Six slots with one variable, places of which the first are given, and turns that are 0.
fn at(value: &str, first: &str, rest: &str) -> String {
    in_line(value, first, rest, "")
}

/// The same with turns, of which the first are given.
fn in_line(value: &str, first: &str, rest: &str, turns: &str) -> String {
    let idle = "FF".repeat(16 - first.len() / 2);
    let none = "00".repeat(16 - turns.len() / 2);
    format!("{value} 8080808080 {first}{idle} {rest} {turns}{none}")
}

fn wants_from_0(file: &str, frames: &str, both: [(u8, usize); 2], points: &[String]) {
    let points: Vec<&str> = points.iter().map(String::as_str).collect();
    wants(file, frames, 0, both, &points);
}

// Of Box, guard 0 is `full == 0` and guard 1 `full == 1`; region 0 puts and signals
// guard 1, region 1 gets and signals guard 0. Behind the places stand: the guards; who
// is notified on the plain machine, who was told; 01, then the same of the table's; the
// turns.

#[test]
fn example_2_a_get_that_waits() {
    let points = [
        at("80", "", "0100 0000 0000 01 0000 0000"),
        // Thread 0 waits at region 1, until thread 1 has put.
        at("80", "01", "0100 0000 0000 01 0000 0000"),
        at("81", "01", "0200 0100 0100 01 0100 0100"),
        at("80", "", "0100 0000 0000 01 0000 0000"),
    ];
    wants_from_0(BOX, "000100 010001 000101", [(0, 0); 2], &points);
}

#[test]
fn example_4_the_earliest_resumes() {
    let points = [
        at("80", "", "0100 0000 0000 01 0000 0000"),
        at("80", "FF01", "0100 0000 0000 01 0000 0000"),
        // Thread 0 comes second: its turn is 1.
        in_line("80", "0101", "0100 0000 0000 01 0000 0000", "01"),
        // The plain machine tells both, the table's the earlier one, thread 1.
        in_line("81", "0101", "0200 0300 0300 01 0200 0200", "01"),
        // Thread 1 leaves, and thread 0 closes up.
        at("80", "01", "0100 0100 0000 01 0000 0000"),
    ];
    wants_from_0(BOX, "010100 000100 020001 010101", [(0, 0); 2], &points);
    // Thread 0 is refused before it. What stands behind a refused frame changes nothing,
    // if it is a frame.
    let frames = "010100 000100 020001 000101";
    wants_from_0(BOX, frames, [(14, 3); 2], &points[..4]);
    wants_from_0(BOX, &format!("{frames} 010101 0FFF00"), [(14, 3); 2], &points[..4]);
}

#[test]
fn example_5_a_recheck_uses_up_the_notice() {
    let points = [
        at("80", "", "0100 0000 0000 01 0000 0000"),
        at("80", "01", "0100 0000 0000 01 0000 0000"),
        at("81", "01", "0200 0100 0100 01 0100 0100"),
        // Thread 2 gets: nobody waits to put, and thread 0 keeps its notice.
        at("80", "01", "0100 0100 0000 01 0100 0000"),
        at("80", "01", "0100 0000 0000 01 0000 0000"),
    ];
    wants_from_0(BOX, "000100 010001 020101 000100", [(0, 0); 2], &points);
}

#[test]
fn example_6_the_table_stops_first() {
    let points = [
        at("80", "", "0100 0000 0000 01 0000 0000"),
        at("80", "01", "0100 0000 0000 01 0000 0000"),
        in_line("80", "0101", "0100 0000 0000 01 0000 0000", "0001"),
        in_line("81", "0101", "0200 0300 0300 01 0100 0100", "0001"),
        in_line("80", "0101", "0100 0300 0000 01 0100 0000", "0001"),
        // Thread 1 rechecks, which the table's machine refuses: it has no such point.
        in_line("80", "0101", "0100 0100 0000 00 0000 0000", "0001"),
    ];
    let frames = "000100 010100 020001 030101 010100";
    wants_from_0(BOX, frames, [(0, 0), (14, 4)], &points);
    // The plain machine goes on, and is refused later: each has its own answer. Thread 4
    // puts, so thread 1 is told again, and thread 0 still has its notice.
    let further =
        [&points[..], &[in_line("81", "0101", "0200 0300 0200 00 0000 0000", "0001")]].concat();
    let frames = format!("{frames} 040001 020200");
    wants_from_0(BOX, &frames, [(13, 6), (14, 4)], &further);
}

#[test]
fn told_are_only_those_without_a_notice_before() {
    let points = [
        at("80", "", "0100 0000 0000 01 0000 0000"),
        at("80", "01", "0100 0000 0000 01 0000 0000"),
        at("81", "01", "0200 0100 0100 01 0100 0100"),
        at("80", "01", "0100 0100 0000 01 0100 0000"),
        in_line("80", "01FFFF01", "0100 0100 0000 01 0100 0000", "00000001"),
        // The second put finds thread 0 notified: the plain machine tells thread 3 alone,
        // and the table's nobody, since it picks thread 0.
        in_line("81", "01FFFF01", "0200 0900 0800 01 0100 0000", "00000001"),
    ];
    wants_from_0(BOX, "000100 010001 020101 030100 010001", [(0, 0); 2], &points);
}

#[test]
fn low_bytes_come_first() {
    let both = format!("{}01{}01", "FF".repeat(8), "FF".repeat(6));
    // Thread 8 comes behind thread 15.
    let turns = format!("{}01", "00".repeat(8));
    let points = [
        at("80", "", "0100 0000 0000 01 0000 0000"),
        at("80", &format!("{}01", "FF".repeat(15)), "0100 0000 0000 01 0000 0000"),
        in_line("80", &both, "0100 0000 0000 01 0000 0000", &turns),
        // Threads 8 and 15 are told, 0x8100, or thread 15 alone.
        in_line("81", &both, "0200 0081 0081 01 0080 0080", &turns),
    ];
    wants_from_0(BOX, "0F0100 080100 070001", [(0, 0); 2], &points);
}

/// Regions 0 and 1 are method a, on guards 0 and 1; region 2 is method b, on guard 2.
const TWO_PARTS: &str =
    "method a { waituntil (x == 0) { x := 1; } waituntil (x == 2) { x := 0; } } \
    method b { waituntil (x == 1) { x := 2; } }";

#[test]
fn a_due_thread() {
    let file = file("var x = 0 in 0..2;", "true", TWO_PARTS);
    let five = |place| format!("{}{place}", "FF".repeat(5));
    let points = [
        at("80", "", "0100 0000 0000 01 0000 0000"),
        // Thread 5 is due at region 1, then waits there.
        at("81", &five("11"), "0400 0000 0000 01 0000 0000"),
        at("81", &five("01"), "0400 0000 0000 01 0000 0000"),
        // Thread 6 makes x 2, in which guard 1 holds.
        at("82", &five("01"), "0200 2000 2000 01 2000 2000"),
        at("80", "", "0100 0000 0000 01 0000 0000"),
    ];
    wants_from_0(&file, "050001 050100 060201 050101", [(0, 0); 2], &points);
    // Thread 6 may not come between: 13 in the middle, and the points before it.
    wants_from_0(&file, "050001 060201 050100", [(13, 1); 2], &points[..2]);
    // Nor is there a region 3.
    wants_from_0(&file, "050001 050300 060201 050101", [(13, 1); 2], &points[..2]);
    // A refusal of the first frame leaves point 0.
    wants_from_0(&file, "050101 050001", [(13, 0); 2], &points[..1]);
    wants_from_0(&file, "050000", [(14, 0); 2], &points[..1]);
}

#[test]
fn six_variables_from_another_state() {
    let variables = "var a = -128 in -128..-127; var b = 127 in 126..127; var c = 0 in -1..0; \
        var d = 1 in 0..1; var e = -5 in -5..-4; var f = 9 in 8..9;";
    let file = file(variables, "true", "method m { waituntil (f == 9) { a := -127; } }");
    let idle = "FF".repeat(16);
    let turns = "00".repeat(16);
    let rest = format!("0100 0000 0000 01 0000 0000 {turns}");
    // The start values' state is 0b011101; state 0 has every lowest value.
    let points = [format!("00FF80817B89 {idle} {rest}"), format!("01FF80817B89 {idle} {rest}")];
    wants(&file, "000001", 0b011101, [(0, 0); 2], &[&points[0], &points[1]]);
    let lowest = format!("00FE7F807B88 {idle} 0000 0000 0000 01 0000 0000 {turns}");
    wants(&file, "000001", 0, [(14, 0); 2], &[&lowest]);
}

#[test]
fn guards_by_their_numbers() {
    // Eight methods of two regions: guard 2 k is `x == k`, guard 2 k + 1 is `x != k`.
    let method =
        |k| format!("method m{k} {{ waituntil (x == {k}) {{ }} waituntil (x != {k}) {{ }} }}");
    let methods: Vec<String> = (0..8).map(method).collect();
    let sixteen = file("var x = 0 in 0..7;", "true", &methods.join(" "));
    // 0xAAAA are all `x != k`; at 6, guard 12 holds in the place of guard 13.
    wants_from_0(&sixteen, "", [(0, 0); 2], &[at("80", "", "A9AA 0000 0000 01 0000 0000")]);
    let at_6 = at("86", "", "AA9A 0000 0000 01 0000 0000");
    wants(&sixteen, "", 6, [(0, 0); 2], &[&at_6]);
    // Two regions with one guard count it once; a guard that is never asked counts too.
    let shared = ["x == 1", "x == 0", "x == 1", "true"].map(|g| format!("waituntil ({g}) {{ }}"));
    let shared = regions("true", &shared.each_ref().map(String::as_str));
    wants_from_0(&shared, "", [(0, 0); 2], &[at("80", "", "0600 0000 0000 01 0000 0000")]);
}

#[test]
fn a_broadcast_tells_all_on_both_machines() {
    // Region 1 takes x to 1 and guard 0 outlasts its own body: a broadcast.
    let file = regions("true", &["waituntil (x == 1) { }", "waituntil (x == 0) { x := 1; }"]);
    let points = [
        at("80", "", "0200 0000 0000 01 0000 0000"),
        at("80", "00", "0200 0000 0000 01 0000 0000"),
        in_line("80", "0000", "0200 0000 0000 01 0000 0000", "0001"),
        in_line("81", "0000", "0100 0300 0300 01 0300 0300", "0001"),
        at("81", "FF00", "0100 0200 0000 01 0200 0000"),
    ];
    wants_from_0(&file, "000000 010000 020101 000001", [(0, 0); 2], &points);
}

/// The call writes nothing and says this to both machines.
fn refuses(file: &str, trace: &[u8], start: usize, length: usize, wanted: (u8, usize, usize)) {
    let (given, buffer) = call(file, trace, start, length);
    assert_eq!(places(given.plain), wanted);
    assert_eq!(places(given.table), wanted);
    assert_eq!(given.count, 0);
    assert_eq!(buffer, vec![BEFORE; length]);
}

#[test]
fn the_buffer_a_byte_too_short_and_long_enough() {
    let good = trace("000100 010001 000101");
    for (trace, most) in [
        (&good[..0], 1),
        (&good[..7], 2),
        (&good[..14], 3),
        (&good[..], 4),
        // No lists of frames: what counts are bytes, rounded down.
        (&good[..6], 1),
        (&good[..8], 2),
        (&good[..13], 2),
    ] {
        for length in [0, 1, 48, 33 * most, 49 * most - 1] {
            refuses(BOX, trace, 0, length, (10, 0, 0));
        }
        match trace.len() % 7 {
            0 => {
                let (given, buffer) = call(BOX, trace, 0, 49 * most);
                assert_eq!((given.plain, given.table, given.count), (Ok(()), Ok(()), most));
                let (_, longer) = call(BOX, trace, 0, 49 * most + 1);
                assert_eq!(longer[..49 * most], buffer);
                assert_eq!(longer[49 * most..], [BEFORE]);
            }
            _ => refuses(BOX, trace, 0, 49 * most, (12, trace.len() / 7, 0)),
        }
    }
}

#[test]
fn the_empty_trace_has_one_point() {
    let start = at("80", "", "0100 0000 0000 01 0000 0000");
    wants_from_0(BOX, "", [(0, 0); 2], &[start]);
    wants(BOX, "", 1, [(0, 0); 2], &[&at("81", "", "0200 0000 0000 01 0000 0000")]);
}

#[test]
fn refusals_in_their_order() {
    let leaves = file("var x = 0 in 0..1;", "true", "method m { waituntil (true) { x := 2; } }");
    let kept = regions("x < 2", &["waituntil (true) { }"]);
    let room = 49 * 100;
    let (bad, wrong) = (b"zz\n".as_slice(), trace("000900 zz"));
    // Each input below would get every higher number that it can, too.
    refuses("", bad, 9999, 0, (4, 0, 0));
    refuses(&" ".repeat(8193), bad, 9999, 0, (1, 0, 0));
    refuses(&leaves, bad, 9999, 0, (9, 0, 0));
    refuses(&leaves, bad, 9999, room, (9, 0, 0));
    refuses(&kept, bad, 9999, 48, (10, 0, 0));
    refuses(&kept, bad, 4, 48, (10, 0, 0));
    for unkept in [2, 3, 4, 9999, usize::MAX] {
        refuses(&kept, bad, unkept, 49, (11, 0, 0));
        refuses(&kept, b"", unkept, 49, (11, 0, 0));
    }
    refuses(&kept, bad, 1, 49, (12, 0, 0));
    // 12 looks at the whole trace before any frame gets 13 or 14.
    refuses(&kept, &wrong, 1, room, (12, 1, 0));
    // Both places of 9 are given.
    let later = file("var x = 0 in 0..1;", "true", "method m { waituntil (true) { x := x + 1; } }");
    refuses(&later, b"", 0, 0, (9, 0, 1));
}

#[test]
fn lines_of_the_points() {
    let lines = |file: &str, frames: &str| {
        String::from_utf8(points_lines(file.as_bytes(), &trace(frames))).unwrap()
    };
    assert_eq!(lines("", "000000"), "0400000000\n".repeat(2));
    assert_eq!(lines(BOX, "00000"), "0C00000000\n".repeat(2));
    let points = [
        at("80", "", "0100 0000 0000 01 0000 0000"),
        at("80", "01", "0100 0000 0000 01 0000 0000"),
    ];
    let points = points.map(|point| point.replace(' ', "") + "\n").concat();
    assert_eq!(lines(BOX, "000100"), "0000000000\n".repeat(2) + &points);
    assert_eq!(lines(BOX, "000100 000100"), "0E00010000\n".repeat(2) + &points);
    let parted = lines(BOX, "000100 010100 020001 030101 010100");
    assert!(parted.starts_with("0000000000\n0E00040000\n80"));
    assert_eq!(parted.lines().count(), 2 + 6);
    // From the start values' state, wherever it stands.
    let from_1 = BOX.replace("full = 0", "full = 1");
    let point = at("81", "", "0200 0000 0000 01 0000 0000").replace(' ', "");
    assert_eq!(lines(&from_1, ""), format!("{}{point}\n", "0000000000\n".repeat(2)));
}

#[test]
fn lines_of_replay() {
    let lines = |file: &str, trace: &[u8]| {
        String::from_utf8(replay_points(file.as_bytes(), trace)).unwrap()
    };
    // The checksums are those of the points above, or of bytes A5 alone, summed apart.
    let parted = trace("000100 010100 020001 030101 010100");
    let wanted = "0000000000\n0E00040000\n0000065777\n0A00000000\n0000009BD5\n";
    assert_eq!(lines(BOX, &parted), wanted);
    let queued = trace("010100 000100 020001 010101");
    let wanted = "0000000000\n0000000000\n0000055030\n0A00000000\n00000050AE\n";
    assert_eq!(lines(BOX, &queued), wanted);
    let refused = trace("000100 000100");
    let wanted = "0E00010000\n0E00010000\n0000023E9E\n0A00000000\n0000002983\n";
    assert_eq!(lines(BOX, &refused), wanted);
    let wanted = "0000000000\n0000000000\n0000018FE4\n0A00000000\n000000F69F\n";
    assert_eq!(lines(BOX, b""), wanted);
    // A refused file stands before 10, and a bad line behind it.
    let wanted = "0400000000\n0400000000\n000000C399\n0400000000\n000000F69F\n";
    assert_eq!(lines("", b""), wanted);
    let wanted = "0C00010000\n0C00010000\n00000007CD\n0A00000000\n0000004015\n";
    assert_eq!(lines(BOX, b"000100\n0"), wanted);
}

/// What the bytes of a point say.
#[derive(Debug, PartialEq)]
struct Said {
    values: Vec<i64>,
    places: Vec<Place>,
    holding: Vec<usize>,
    plain: Notices,
    table: Option<Notices>,
    turns: Vec<u8>,
}

/// Who is notified, and who of them was told by the frame before.
#[derive(Debug, PartialEq)]
struct Notices {
    notified: Vec<usize>,
    told: Vec<usize>,
}

/// The numbers of the bits that are set in two bytes, the low one first.
fn bits(bytes: &[u8]) -> Vec<usize> {
    let [low, high] = bytes else { panic!("two bytes") };
    let byte_of = |number: usize| if number < 8 { low } else { high };
    (0..16).filter(|number| byte_of(*number) >> (number % 8) & 1 == 1).collect()
}

fn read(point: &[u8], variables: usize) -> Said {
    let values: Vec<i64> = point[0..6].iter().map(|byte| i64::from(*byte) - 128).collect();
    assert!(values[variables..].iter().all(|value| *value == 0));
    let place = |byte: &u8| match byte {
        0xFF => Place::Idle,
        0x00..=0x0F => Place::Waiting(usize::from(*byte)),
        0x10..=0x1F => Place::Due(usize::from(*byte) - 0x10),
        _ => panic!("{byte:02X} is no place"),
    };
    let notices = |bytes: &[u8]| Notices { notified: bits(&bytes[0..2]), told: bits(&bytes[2..4]) };
    Said {
        values: values[..variables].to_vec(),
        places: point[6..22].iter().map(place).collect(),
        holding: bits(&point[22..24]),
        plain: notices(&point[24..28]),
        table: match point[28] {
            0 => {
                assert_eq!(point[29..33], [0; 4]);
                None
            }
            1 => Some(notices(&point[29..33])),
            other => panic!("{other:02X} is no answer"),
        },
        turns: point[33..].to_vec(),
    }
}

/// Who is notified at the end of a run, and was not at the end of that of a line less.
fn notices(before: Option<&Record>, record: &Record) -> Notices {
    let notified: Vec<usize> = (0..16).filter(|thread| record.notified[*thread]).collect();
    let is_new = |thread: &usize| before.is_some_and(|before| !before.notified[*thread]);
    let told = notified.iter().copied().filter(is_new).collect();
    Notices { notified, told }
}

/// How often each end was met, so that the property is known not to be empty.
#[derive(Default, Debug)]
struct Ends {
    accepted: usize,
    refused_alike: usize,
    parted: usize,
    refused_whole: usize,
    points: usize,
    told: usize,
    turned: usize,
    due: usize,
}

/// At point k stands what separate runs of the first k lines end with, on each machine,
/// and there are as many points as the plain machine has. Of a long trace some points
/// are compared.
fn compare(case: &Case, start: usize, ends: &mut Ends) {
    let (file, trace) = (&case.monitor, &case.trace);
    let most = trace.len() / 7 + 1;
    let (given, buffer) = call(file, trace, start, 49 * most + 7);
    let behind = &buffer[49 * given.count..];
    assert!(behind.iter().all(|byte| *byte == BEFORE) && behind.len() >= 7);
    let exact = call(file, trace, start, 49 * most);
    assert_eq!((exact.0, &exact.1[..]), (given, &buffer[..49 * most]));

    let machines = match check(file) {
        Ok(monitor) => Machines::of(monitor),
        Err(answer) => {
            ends.refused_whole += 1;
            refuses_alike(case, start, answer, given);
            assert_eq!(call(file, trace, start, 0), (given, Vec::new()));
            return;
        }
    };
    let short = call(file, trace, start, 49 * most - 1);
    let ten = Err(Answer::at(10, 0));
    assert_eq!(short.0, Points { plain: ten, table: ten, count: 0 });
    assert!(short.1.iter().all(|byte| *byte == BEFORE));

    let run = |bytes: usize, machine| machines.run(&trace[..bytes], start, machine);
    let whole = [Machine::Plain, Machine::Table].map(|machine| run(trace.len(), machine));
    let answers = whole.map(|record| record.map(|_| ()));
    assert_eq!([given.plain, given.table], answers);
    let count = match answers[0] {
        Ok(()) => trace.len() / 7 + 1,
        Err(answer) if answer.number >= 13 => answer.first + 1,
        Err(answer) => {
            ends.refused_whole += 1;
            return refuses_alike(case, start, answer, given);
        }
    };
    assert_eq!(given.count, count);
    match answers {
        [Ok(()), Ok(())] => ends.accepted += 1,
        [one, other] if one == other => ends.refused_alike += 1,
        _ => ends.parted += 1,
    }
    let apart = 1 + count / 200;
    for k in (0..count).filter(|k| k % apart == 0 || k + 1 == count) {
        let ended = |machine| run(7 * k, machine);
        let plain = ended(Machine::Plain).expect("a point that the plain machine has");
        let table = ended(Machine::Table).ok();
        let before = |machine| k.checked_sub(1).map(|k| run(7 * k, machine).unwrap());
        if let Some(table) = &table {
            assert_eq!((&table.values, table.places), (&plain.values, plain.places));
            assert_eq!(table.turns, plain.turns);
        }
        let holds = |guard: &usize| machines.monitor.guard_holds(*guard, &plain.values);
        let wanted = Said {
            values: plain.values.clone(),
            places: plain.places.to_vec(),
            holding: (0..machines.monitor.guards.len()).filter(holds).collect(),
            plain: notices(before(Machine::Plain).as_ref(), &plain),
            table: table.map(|table| notices(before(Machine::Table).as_ref(), &table)),
            turns: plain.turns.to_vec(),
        };
        ends.points += 1;
        ends.told += usize::from(!wanted.plain.told.is_empty());
        ends.turned += usize::from(wanted.turns.iter().any(|turn| *turn > 0));
        ends.due += usize::from(plain.places.iter().any(|place| matches!(place, Place::Due(_))));
        let point = &buffer[49 * k..49 * (k + 1)];
        assert_eq!(read(point, plain.values.len()), wanted, "point {k}");
    }
}

/// Both machines have this answer, and there are no points.
fn refuses_alike(case: &Case, start: usize, answer: Answer, given: Points) {
    let wanted = Points { plain: Err(answer), table: Err(answer), count: 0 };
    assert_eq!(given, wanted, "{} bytes from {start}", case.monitor.len());
}

/// The case from its start values' state, and from a state of any number.
fn compare_case(case: &Case, number: usize, ends: &mut Ends) {
    let start = check(&case.monitor).map_or(0, |monitor| monitor.start_number());
    compare(case, start, ends);
    compare(case, number % 41, ends);
}

#[test]
fn points_are_runs_of_the_first_lines() {
    let mut ends = Ends::default();
    for number in 0..400 {
        compare_case(&make_case(21, number, Size::SMALL), number, &mut ends);
    }
    for number in 0..100 {
        compare_case(&make_case(22, number, Size::FULL), number, &mut ends);
    }
    assert!(ends.accepted > 100 && ends.refused_alike > 50 && ends.parted > 20, "{ends:?}");
    assert!(ends.refused_whole > 100 && ends.points > 2000, "{ends:?}");
    assert!(ends.told > 200 && ends.turned > 200 && ends.due > 200, "{ends:?}");
}

#[test]
fn points_of_hostile_input() {
    let mut ends = Ends::default();
    let mut bases = Bases::of(23);
    for number in 0..150 {
        compare_case(&bases.input(number), number, &mut ends);
    }
    assert!(ends.accepted > 10 && ends.refused_alike > 10 && ends.refused_whole > 50, "{ends:?}");
}
