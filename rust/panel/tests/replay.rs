//! The JSON of every case of crates/replay, made back into what the programs print for it, byte for byte.
mod common;
use common::{cases, panel, root, stdout, Json, Scratch};
use std::fs;

fn answer_line(answer: &Json) -> String {
    let numbers = answer.numbers();
    format!("{:02X}{:04X}{:04X}\n", numbers[0], numbers[1], numbers[2])
}

fn is_accepted(object: &Json) -> bool {
    object.at("answer").numbers()[0] == 0
}

fn placer_lines(place: &Json) -> String {
    if !is_accepted(place) {
        return answer_line(place.at("answer"));
    }
    place.at("table").list().iter().map(|line| format!("{}\n", line.text())).collect()
}

fn machine_line(machine: &Json) -> String {
    if !is_accepted(machine) {
        assert_eq!(machine.keys(), ["answer"]);
        return answer_line(machine.at("answer"));
    }
    let pairs = |key: &str, raised: i64| machine.at(key).numbers().iter().map(|n| format!("{:02X}", n + raised)).collect::<String>();
    format!("00{}{}\n", pairs("values", 128), pairs("places", 0))
}

fn runner_lines(run: &Json) -> String {
    if !is_accepted(run) {
        assert_eq!(run.keys(), ["answer"]);
        return answer_line(run.at("answer"));
    }
    machine_line(run.at("plain")) + &machine_line(run.at("table"))
}

fn set(members: &Json) -> [u8; 2] {
    members.numbers().iter().fold(0u16, |set, member| set | 1 << member).to_le_bytes()
}

/// The bytes of a point.
const POINT: usize = 49;

/// The turns of a record or a point as bytes: null stands exactly where a thread does not wait.
fn turns(object: &Json) -> Vec<u8> {
    let places = object.at("places").numbers();
    let turns = object.at("turns").list();
    assert_eq!((places.len(), turns.len()), (16, 16));
    let turn = |(turn, place): (&Json, &i64)| {
        assert_eq!(*turn == Json::Null, *place >= 16, "{object:?}");
        if *turn == Json::Null {
            0
        } else {
            turn.number() as u8
        }
    };
    turns.iter().zip(&places).map(turn).collect()
}

fn point(point: &Json) -> Vec<u8> {
    let mut bytes = [128; 6].to_vec();
    for (slot, value) in bytes.iter_mut().zip(point.at("values").numbers()) {
        *slot = (value + 128) as u8;
    }
    bytes.extend(point.at("places").numbers().iter().map(|place| *place as u8));
    bytes.extend(set(point.at("guards")));
    let notices = |bytes: &mut Vec<u8>, machine: &Json| {
        bytes.extend(set(machine.at("notified")));
        bytes.extend(set(machine.at("told")));
    };
    notices(&mut bytes, point.at("plain"));
    match point.at("table") {
        Json::Null => bytes.extend([0; 5]),
        table => {
            bytes.push(1);
            notices(&mut bytes, table);
        }
    }
    bytes.extend(turns(point));
    assert_eq!(bytes.len(), POINT);
    bytes
}

fn checksum(bytes: &[u8]) -> u32 {
    bytes.iter().fold(1, |sum, byte| (sum * 31 + u32::from(*byte)) % 65521)
}

/// The five lines about points, whose buffers hold A5 before: see tools/gate/src/replay_data.rs.
fn points_lines(run: &Json, trace: usize) -> String {
    let needed = POINT * (trace / 7 + 1);
    let count_line = |count: usize, buffer: &[u8]| format!("00{count:04X}{:04X}\n", checksum(buffer));
    let short = count_line(0, &vec![0xA5; needed - 1]);
    if !is_accepted(run) {
        let answer = answer_line(run.at("answer"));
        return format!("{answer}{answer}{}{answer}{short}", count_line(0, &vec![0xA5; needed + POINT]));
    }
    let points = run.at("points").list();
    for machine in [run.at("plain"), run.at("table")] {
        if is_accepted(machine) {
            assert_eq!(turns(machine), turns(points.last().expect("a point")));
        }
    }
    let mut buffer: Vec<u8> = points.iter().flat_map(point).collect();
    buffer.resize(needed + POINT, 0xA5);
    let answers = [run.at("plain"), run.at("table")].map(|machine| answer_line(machine.at("answer"))).concat();
    format!("{answers}{}0A00000000\n{short}", count_line(points.len(), &buffer))
}

/// The lines about tries: the chosen ones and how many there are, or the refusal; and a line for each try.
fn tries_lines(place: &Json) -> String {
    let tries = place.get("tries").map_or(&[][..], Json::list);
    let mut lines = match is_accepted(place) {
        true => format!("00{:04X}{:04X}\n", place.at("chosen").number(), tries.len()),
        false => answer_line(place.at("answer")),
    };
    for tried in tries {
        let number = |key: &str| tried.at(key).number();
        lines += &match tried.at("fate").text() {
            "chosen" => "0000000000\n".into(),
            "false" => "FF00000000\n".into(),
            "broken" => format!("{:02X}{:04X}{:04X}\n", number("pass"), number("region"), number("state")),
            other => panic!("a fate {other}"),
        };
    }
    lines
}

/// The line about touched pairs: how many there are, and how many bytes the table has.
fn pairs_line(place: &Json) -> String {
    let (pairs, length) = match is_accepted(place) {
        true => (place.at("pairs").number(), 9 * place.at("table").list().len()),
        false => {
            assert!(place.get("pairs").is_none() && place.get("table").is_none());
            (0, 0)
        }
    };
    format!("00{pairs:04X}{length:04X}\n")
}

fn written(write: impl FnOnce(&mut dyn std::io::Write) -> std::io::Result<()>) -> Json {
    let mut bytes = Vec::new();
    write(&mut bytes).expect("written");
    common::assert_tame(&bytes);
    Json::read(&String::from_utf8(bytes).expect("ASCII"))
}

/// All that is told of a case, from the four objects of it.
fn told(check: &Json, place: &Json, run: &Json, show: &Json, trace: usize) -> String {
    let tried = matches!(check.at("answer").numbers()[0], 0 | 9);
    assert_eq!(check.keys(), if tried { vec!["answer", "chosen", "tries"] } else { vec!["answer"] });
    for key in ["answer", "chosen", "tries"] {
        assert_eq!(check.get(key), place.get(key));
        assert_eq!(check.get(key), show.get(key));
    }
    if let Some(outline) = show.get("outline").filter(|_| tried) {
        let conditions: Vec<&Json> = check.at("tries").list().iter().map(|tried| tried.at("condition")).collect();
        assert_eq!(conditions, outline.at("tries").list().iter().collect::<Vec<_>>());
    }
    if is_accepted(check) {
        assert_eq!(show.at("place"), place);
        assert_eq!(show.at("run"), run);
        let variables = show.at("outline").at("variables").list().len();
        assert!(run.at("points").list().iter().all(|point| point.at("values").list().len() == variables));
    } else {
        assert!(show.get("place").is_none() && show.get("run").is_none());
    }
    placer_lines(place) + &runner_lines(run) + &points_lines(run, trace) + &tries_lines(place) + &pairs_line(place)
}

/// On a thread with room for the library's calls, as the program has it.
fn on_a_stack(test: impl FnOnce() + Send + 'static) {
    std::thread::Builder::new().stack_size(panel::STACK).spawn(test).expect("a thread").join().expect("the test")
}

#[test]
fn objects_hold_what_the_programs_print() {
    on_a_stack(|| {
        let expected = fs::read_to_string(root().join("crates/replay/stdout")).expect("what is printed");
        let cases = cases();
        assert!(cases.len() > 800, "{}", cases.len());
        let mut at = 0;
        for (k, (file, trace)) in cases.iter().enumerate() {
            let check = written(|to| panel::json::check(to, file));
            let place = written(|to| panel::json::place(to, file));
            let run = written(|to| panel::json::run(to, file, trace, None, true));
            let show = written(|to| panel::json::show(to, file, Some(trace), None, true));
            let lines = told(&check, &place, &run, &show, trace.len());
            assert!(expected[at..].starts_with(&lines), "case {k}: {lines}");
            at += lines.len();
        }
        assert_eq!(at, expected.len());
    });
}

/// The program itself on every 23rd case, by files and by standard input.
#[test]
fn the_program_prints_these_objects() {
    let expected = fs::read_to_string(root().join("crates/replay/stdout")).expect("what is printed");
    let scratch = Scratch::new();
    let mut told_some = 0;
    for (file, trace) in cases().iter().step_by(23) {
        let at = scratch.put("monitor.txt", file);
        let trace_at = scratch.put("trace.txt", trace);
        let object = |arguments: &[&str]| {
            let mut all: Vec<&std::ffi::OsStr> = vec![arguments[0].as_ref(), at.as_os_str()];
            if matches!(arguments[0], "run" | "show") {
                all.push(trace_at.as_os_str());
            }
            all.extend(arguments[1..].iter().map(|argument| std::ffi::OsStr::new(*argument)));
            let output = panel(&all);
            let text = stdout(&output);
            assert_eq!(text.matches('\n').count(), 1);
            (Json::read(&text), common::status(&output))
        };
        let (check, check_status) = object(&["check", "--json"]);
        let (place, place_status) = object(&["place", "--json"]);
        let (run, run_status) = object(&["run", "--json", "--points"]);
        let (show, show_status) = object(&["show", "--points", "--json"]);
        let lines = told(&check, &place, &run, &show, trace.len());
        assert!(expected.contains(&lines), "{lines}");
        let file_status = i32::from(!is_accepted(&check));
        let both = is_accepted(&run) && is_accepted(run.at("plain")) && is_accepted(run.at("table"));
        assert_eq!([check_status, place_status, run_status, show_status], [file_status, file_status, i32::from(!both), i32::from(!both)]);
        let piped = common::panel_reading(&["check", "-", "--json"], file);
        assert_eq!(Json::read(&stdout(&piped)), check);
        told_some += 1;
    }
    assert!(told_some > 30);
}
