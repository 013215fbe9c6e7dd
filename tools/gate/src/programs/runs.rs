//! All runs of the programs.

use super::inputs::{
    count, cuts_of, files, filled, full, in_parts, record, refusal, table_of_full, traces, walk,
    FILE_BYTES, TRACE_CUTS,
};
use super::run::{placer, runner, Given, Run};
use crate::system::{is_root, EACCES, EAGAIN, EBADF, ECONNRESET, EFBIG, EISDIR, ELOOP, ENOSPC};

const NO_INPUT: &str = r#"exec "$@" <&-"#;
const NO_OUTPUT: &str = r#"exec "$@" >&-"#;
const NO_WORDS: &str = r#"exec "$@" 2>&-"#;
const FULL_DISK: &str = r#"exec "$@" > /dev/full"#;
/// Only the first 1,024 bytes find room.
const HALF_FULL_DISK: &str = r#"trap "" XFSZ; ulimit -f 1; exec "$@""#;
const INTO_A_PIPE: &str = r#""$@" | cat"#;

pub fn runs() -> Vec<Run> {
    let mut runs = placer_input_failures();
    runs.extend(placer_output_failures());
    runs.extend(runner_input_failures());
    runs.extend(runner_output_failures());
    runs.extend(placer_runs());
    runs.extend(runner_runs());
    runs.extend(monitor_runs());
    runs.extend(trace_runs());
    runs
}

/// What cannot be read gets no line, and what cannot be read or written is said in one line.
fn placer_input_failures() -> Vec<Run> {
    let fails = |name: &str, input, number| {
        placer(&format!("input-{name}"), input, b"").saying("standard input", number)
    };
    let text = || Given::File(full());
    let mut runs = vec![
        fails("closed", text(), EBADF).by(NO_INPUT),
        fails("write-only", text(), EBADF).by(r#"exec "$@" 0> /dev/null"#),
        fails("directory", text(), EISDIR).by(r#"exec "$@" < ."#),
    ];
    let behind = [("nothing", Vec::new()), ("text", full()), ("8192", filled(&full(), FILE_BYTES))];
    for (name, bytes) in behind {
        runs.push(fails(&format!("stuck-after-{name}"), Given::Stuck(bytes.clone()), EAGAIN));
        runs.push(fails(&format!("reset-after-{name}"), Given::Reset(bytes), ECONNRESET));
    }
    runs
}

fn placer_output_failures() -> Vec<Run> {
    let fails = |name: &str, file, printed: &[u8], number| {
        let name = format!("output-{name}");
        placer(&name, Given::File(file), printed).saying("standard output", number)
    };
    let table = table_of_full();
    vec![
        fails("closed-table", full(), b"", EBADF).by(NO_OUTPUT),
        fails("full-table", full(), b"", ENOSPC).by(FULL_DISK),
        fails("closed-refusal", Vec::new(), b"", EBADF).by(NO_OUTPUT),
        fails("full-refusal", Vec::new(), b"", ENOSPC).by(FULL_DISK),
        fails("half", full(), &table[..1024], EFBIG).by(HALF_FULL_DISK),
    ]
}

fn runner_input_failures() -> Vec<Run> {
    let mut kinds = vec![("directory", Given::Directory, EISDIR), ("loop", Given::Loop, ELOOP)];
    if !is_root() {
        kinds.push(("locked", Given::Locked, EACCES));
    }
    let mut runs = Vec::new();
    for (name, given, number) in kinds {
        let monitor = |rest: &str| {
            let name = format!("monitor-{name}{rest}");
            runner(&name, given.clone(), Given::File(walk(3)), b"").saying("monitor.txt", number)
        };
        let trace = |rest: &str| {
            let name = format!("trace-{name}{rest}");
            runner(&name, Given::File(count()), given.clone(), b"").saying("trace.txt", number)
        };
        let both = runner(&format!("both-{name}"), given.clone(), given.clone(), b"");
        runs.extend([
            monitor(""),
            trace(""),
            monitor("-input-closed").by(NO_INPUT),
            trace("-input-closed").by(NO_INPUT),
            both.saying("monitor.txt", number),
            Run { said: String::new(), ..monitor("-unsaid").by(NO_WORDS) },
        ]);
    }
    runs
}

fn runner_output_failures() -> Vec<Run> {
    let fails = |name: &str, monitor, trace, number| {
        let name = format!("output-{name}");
        let (monitor, trace) = (Given::File(monitor), Given::File(trace));
        runner(&name, monitor, trace, b"").saying("standard output", number)
    };
    vec![
        fails("closed-record", count(), walk(3), EBADF).by(NO_OUTPUT),
        fails("full-record", count(), walk(3), ENOSPC).by(FULL_DISK),
        fails("closed-long", count(), walk(9362), EBADF).by(NO_OUTPUT),
        fails("full-long", count(), walk(9362), ENOSPC).by(FULL_DISK),
        fails("full-refusal", Vec::new(), walk(3), ENOSPC).by(FULL_DISK),
    ]
}

fn placer_runs() -> Vec<Run> {
    let (text, table) = (full(), table_of_full());
    let by_bytes = text[..200].chunks(1).map(<[u8]>::to_vec).collect();
    let mut runs = vec![
        placer("null", Given::File(Vec::new()), &refusal(4, 0)).by(r#"exec "$@" < /dev/null"#),
        placer("table-by-pipe", Given::File(text.clone()), &table).by(INTO_A_PIPE),
        placer("said-nothing", Given::File(text.clone()), &table).by(NO_WORDS),
        placer("small/by-1", Given::Pipe(by_bytes), &refusal(4, 200)),
    ];
    for file in files(&text) {
        let name = &file.name;
        let printed = file.refused.as_ref().unwrap_or(&table);
        runs.push(placer(&format!("{name}/file"), Given::File(file.bytes.clone()), printed));
        for (way, parts) in in_parts(&file.bytes, cuts_of(&file)) {
            let pipe = Given::Pipe(parts.clone());
            runs.push(placer(&format!("{name}/pipe-{way}"), pipe, printed));
            if name.starts_with("spread") && (way == "by-1000" || way == "cut-4096") {
                let socket = Given::Socket(parts.clone());
                runs.push(placer(&format!("{name}/socket-{way}"), socket, printed));
                let fifo = placer(&format!("{name}/fifo-{way}"), Given::Fifo(parts), printed);
                runs.push(fifo.by(r#"exec "$@" < input"#));
            }
        }
    }
    runs
}

/// The run, and once more with standard input closed: what is opened first then gets descriptor 0.
fn twice(name: &str, monitor: Given, trace: Given, printed: &[u8]) -> [Run; 2] {
    let closed = format!("{name}-input-closed");
    [
        runner(name, monitor.clone(), trace.clone(), printed),
        runner(&closed, monitor, trace, printed).by(NO_INPUT),
    ]
}

/// Three frames, and both machines' lines for them.
fn some_frames() -> (Given, Vec<u8>) {
    (Given::File(walk(3)), record(&walk(3)).repeat(2))
}

fn runner_runs() -> Vec<Run> {
    let (some, lines) = some_frames();
    let monitor = Given::File(count());
    let mut runs = Vec::new();
    runs.extend(twice("missing/both", Given::Missing, Given::Missing, &refusal(4, 0)));
    runs.extend(twice("missing/monitor", Given::Missing, some.clone(), &refusal(4, 0)));
    runs.extend(twice("missing/trace", monitor.clone(), Given::Missing, &record(b"").repeat(2)));
    let plain = |name| runner(name, monitor.clone(), some.clone(), &lines);
    runs.push(plain("lines-by-pipe").by(INTO_A_PIPE));
    runs.push(plain("said-nothing").by(NO_WORDS));
    runs
}

fn monitor_runs() -> Vec<Run> {
    let (some, lines) = some_frames();
    let mut runs = Vec::new();
    for file in files(&count()) {
        let name = format!("monitor/{}", file.name);
        let printed = file.refused.as_ref().unwrap_or(&lines);
        let whole = Given::File(file.bytes.clone());
        runs.extend(twice(&format!("{name}/file"), whole, some.clone(), printed));
        for (way, parts) in in_parts(&file.bytes, cuts_of(&file)) {
            let name = format!("{name}/fifo-{way}");
            runs.push(runner(&name, Given::Fifo(parts), some.clone(), printed));
        }
    }
    runs
}

fn trace_runs() -> Vec<Run> {
    let monitor = Given::File(count());
    let in_two = Given::Fifo(vec![count()[..100].to_vec(), count()[100..].to_vec()]);
    let mut runs = Vec::new();
    for trace in traces() {
        let (at, printed) = (format!("trace/{}", trace.name), &trace.lines);
        let whole = Given::File(trace.bytes.clone());
        runs.extend(twice(&format!("{at}/file"), monitor.clone(), whole, printed));
        for (way, parts) in in_parts(&trace.bytes, &TRACE_CUTS) {
            let fifo = Given::Fifo(parts);
            let name = format!("{at}/fifo-{way}");
            runs.push(runner(&name, monitor.clone(), fifo.clone(), printed));
            if way == "by-1000" {
                let name = format!("{at}/fifos-{way}");
                runs.extend(twice(&name, in_two.clone(), fifo, printed));
            }
        }
    }
    runs
}
