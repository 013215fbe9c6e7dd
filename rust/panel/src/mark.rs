//! Marks a class: every hand-in below a folder, on all cores.
use crate::input::{name_text, system_words, FILE_BYTES};
use crate::json;
use crate::out::{wrapped, Out, Style};
use crate::words;
use damsonyet::Refusal;
use std::ffi::OsString;
use std::fs::{self, File};
use std::io::{self, IsTerminal, Read, Write};
use std::path::{Path, PathBuf};
use std::sync::atomic::{AtomicUsize, Ordering};
use std::sync::OnceLock;
use std::time::Duration;

/// What the plain machine and the table's answer to a trace.
type Answers = (Result<(), Refusal>, Result<(), Refusal>);

/// A trace of a hand-in: both machines' answers, or why it cannot be read.
pub struct Traced {
    pub name: OsString,
    pub answers: Result<Answers, String>,
}

/// A hand-in: its path below the folder, and the verdict on its file with the count of its table's entries and what its refusal is; or
/// why it cannot be read.
pub struct Marked {
    pub path: PathBuf,
    pub file: Result<Result<usize, (Refusal, String)>, String>,
    pub traces: Vec<Traced>,
}

#[derive(Clone, Copy, Debug, PartialEq, Eq)]
pub enum Mark {
    Accepted,
    /// The file is refused, or it is accepted and a machine refuses a trace.
    Refused,
    Unreadable,
}

impl Traced {
    fn mark(&self) -> Mark {
        match &self.answers {
            Ok((Ok(()), Ok(()))) => Mark::Accepted,
            Ok(_) => Mark::Refused,
            Err(_) => Mark::Unreadable,
        }
    }

    fn parts_at(&self) -> Option<usize> {
        self.answers.as_ref().ok().and_then(|(plain, table)| words::parts_at(plain, table))
    }
}

impl Marked {
    /// The mark of the file alone.
    fn file_mark(&self) -> Mark {
        match &self.file {
            Ok(Ok(_)) => Mark::Accepted,
            Ok(Err(_)) => Mark::Refused,
            Err(_) => Mark::Unreadable,
        }
    }

    pub fn mark(&self) -> Mark {
        let marks = || self.traces.iter().map(Traced::mark).chain([self.file_mark()]);
        [Mark::Unreadable, Mark::Refused].into_iter().find(|&mark| marks().any(|each| each == mark)).unwrap_or(Mark::Accepted)
    }
}

/// How many hand-ins there are of each mark; of the refused ones, how many for a trace only.
#[derive(Default, Debug, PartialEq, Eq)]
pub struct Count {
    pub accepted: usize,
    pub refused: usize,
    pub for_trace: usize,
    pub unreadable: usize,
}

pub fn count(class: &[Marked]) -> Count {
    let mut count = Count::default();
    for hand_in in class {
        match hand_in.mark() {
            Mark::Accepted => count.accepted += 1,
            Mark::Refused => count.refused += 1,
            Mark::Unreadable => count.unreadable += 1,
        }
        count.for_trace += usize::from(hand_in.mark() == Mark::Refused && hand_in.file_mark() == Mark::Accepted);
    }
    count
}

/// A folder that was found: a hand-in with the names of its traces, or one that cannot be read.
struct Found {
    path: PathBuf,
    traces: Result<Vec<OsString>, String>,
}

/// What a folder has: whether there is a monitor.txt, the traces in order of name, and the folders in it. Links to folders are left out,
/// so that none is walked twice.
fn look(folder: &Path) -> io::Result<(bool, Vec<OsString>, Vec<OsString>)> {
    let (mut is_hand_in, mut traces, mut folders) = (false, Vec::new(), Vec::new());
    for entry in fs::read_dir(folder)? {
        let entry = entry?;
        let name = entry.file_name();
        let bytes = name.as_encoded_bytes();
        is_hand_in |= bytes == b"monitor.txt";
        if bytes.starts_with(b"trace") && bytes.ends_with(b".txt") {
            traces.push(name);
        } else if entry.file_type()?.is_dir() && bytes != b"monitor.txt" {
            folders.push(name);
        }
    }
    traces.sort();
    Ok((is_hand_in, traces, folders))
}

/// All hand-ins below a folder, itself included, in order of path. Only the folder itself must be readable.
fn find(top: &Path) -> io::Result<Vec<Found>> {
    let mut found = Vec::new();
    let mut open = vec![PathBuf::new()];
    while let Some(path) = open.pop() {
        match look(&top.join(&path)) {
            Ok((is_hand_in, traces, folders)) => {
                open.extend(folders.into_iter().map(|name| path.join(name)));
                if is_hand_in {
                    found.push(Found { path, traces: Ok(traces) });
                }
            }
            Err(error) if path.as_os_str().is_empty() => return Err(error),
            Err(error) => found.push(Found { path, traces: Err(system_words(&error)) }),
        }
    }
    found.sort_by(|a, b| a.path.cmp(&b.path));
    Ok(found)
}

/// A file's bytes, at most so many. What is no plain file (a pipe, a device) is not opened: it might never end.
fn read(path: &Path, most: u64) -> Result<Vec<u8>, String> {
    let told = |error: io::Error| system_words(&error);
    let kind = fs::metadata(path).map_err(told)?;
    if kind.is_dir() {
        return Err("Is a directory".into());
    }
    if !kind.is_file() {
        return Err("Not a regular file".into());
    }
    let mut bytes = Vec::new();
    File::open(path).and_then(|file| file.take(most).read_to_end(&mut bytes)).map_err(told)?;
    Ok(bytes)
}

fn judge(top: &Path, found: &Found) -> Marked {
    let folder = top.join(&found.path);
    let mut marked = Marked { path: found.path.clone(), file: Err(String::new()), traces: Vec::new() };
    let names = match &found.traces {
        Ok(names) => names,
        Err(why) => {
            marked.file = Err(why.clone());
            return marked;
        }
    };
    let file = match read(&folder.join("monitor.txt"), FILE_BYTES + 1) {
        Ok(file) => file,
        Err(why) => {
            marked.file = Err(format!("monitor.txt: {why}"));
            return marked;
        }
    };
    marked.file = Ok(match damsonyet::place(&file) {
        Ok(table) => Ok(table.entries.len()),
        Err(refusal) => Err((refusal, words::refusal(&file, &refusal).headline)),
    });
    if marked.file_mark() == Mark::Accepted {
        let answers = |name: &OsString| {
            let trace = read(&folder.join(name), u64::MAX)?;
            let both = damsonyet::run_both_from_start(&file, &trace).map_err(|refusal| refusal.to_string())?;
            Ok((both.plain.map(|_| ()), both.table.map(|_| ())))
        };
        marked.traces = names.iter().map(|name| Traced { name: name.clone(), answers: answers(name) }).collect();
    }
    marked
}

/// Judges every hand-in below a folder.
pub fn mark(top: &Path) -> io::Result<Vec<Marked>> {
    let found = find(top)?;
    let slots: Vec<OnceLock<Marked>> = found.iter().map(|_| OnceLock::new()).collect();
    let (next, done) = (AtomicUsize::new(0), AtomicUsize::new(0));
    let work = || {
        while let Some(k) = Some(next.fetch_add(1, Ordering::Relaxed)).filter(|&k| k < found.len()) {
            let _ = slots[k].set(judge(top, &found[k]));
            done.fetch_add(1, Ordering::Relaxed);
        }
    };
    let cores = std::thread::available_parallelism().map_or(1, |cores| cores.get()).min(found.len());
    std::thread::scope(|scope| {
        // This thread works too, or on a terminal tells how far it is while another works in its stead.
        let spawn = || std::thread::Builder::new().stack_size(crate::STACK).spawn_scoped(scope, work).is_ok();
        for _ in 1..cores {
            spawn();
        }
        if io::stderr().is_terminal() && spawn() {
            progress(&done, found.len());
        }
        work();
    });
    Ok(slots.into_iter().filter_map(OnceLock::into_inner).collect())
}

/// Tells how far it is, on a terminal.
fn progress(done: &AtomicUsize, all: usize) {
    let mut to = io::stderr();
    loop {
        let n = done.load(Ordering::Relaxed);
        if n >= all {
            let _ = write!(to, "\r\x1b[K");
            return;
        }
        let _ = write!(to, "\rmarking {n} of {all}");
        std::thread::sleep(Duration::from_millis(50));
    }
}

// ---- what is printed

fn path_text(path: &Path) -> String {
    if path.as_os_str().is_empty() {
        ".".into()
    } else {
        name_text(path.as_os_str())
    }
}

fn mark_word(mark: Mark) -> (&'static str, Style) {
    match mark {
        Mark::Accepted => ("accepted", Style::Plain),
        Mark::Refused => ("refused", Style::Bad),
        Mark::Unreadable => ("unreadable", Style::Bad),
    }
}

fn file_text(hand_in: &Marked) -> String {
    match &hand_in.file {
        Ok(Ok(entries)) => words::entries(*entries),
        Ok(Err((refusal, headline))) => match refusal.number {
            1 => headline.clone(),
            9 => format!("{headline} (region {:02X}, state {})", refusal.first, refusal.second),
            _ => format!("{headline} (byte {})", refusal.first),
        },
        Err(why) => why.clone(),
    }
}

fn answer_text(answer: &Result<(), Refusal>) -> String {
    match answer {
        Ok(()) => "accepts".into(),
        Err(refusal) => format!("{} at frame {}", refusal.number, refusal.first),
    }
}

fn trace_text(trace: &Traced) -> String {
    match &trace.answers {
        Ok((Ok(()), Ok(()))) => "both machines accept".into(),
        Ok((plain, table)) if plain == table => format!("both machines: {}", answer_text(plain)),
        Ok((plain, table)) => {
            let parts = if trace.parts_at().is_some() { ": they part" } else { "" };
            format!("plain {}, table {}{parts}", answer_text(plain), answer_text(table))
        }
        Err(why) => why.clone(),
    }
}

/// A row: a name, a mark and a text, in columns. A name that is too long for its column has a line of its own.
fn row(out: &mut Out, column: usize, name: &str, (word, style): (&str, Style), text: &str) -> io::Result<()> {
    let lead = if name.chars().count() <= column {
        format!("{name:column$}  ")
    } else {
        for line in wrapped(out.width, "", "  ", name) {
            out.line(Style::Plain, &line)?;
        }
        " ".repeat(column + 2)
    };
    out.text(style, &format!("{lead}{word:10}  "), &" ".repeat(column + 14), text)
}

pub fn text(out: &mut Out, class: &[Marked]) -> io::Result<()> {
    let names = class.iter().flat_map(|hand_in| {
        let traces = hand_in.traces.iter().map(|trace| name_text(&trace.name).chars().count() + 2);
        traces.chain([path_text(&hand_in.path).chars().count()])
    });
    let column = names.max().unwrap_or(0).clamp(7, out.width * 2 / 5);
    if !class.is_empty() {
        row(out, column, "hand-in", ("verdict", Style::Bold), "table or reason; traces below")?;
    }
    for hand_in in class {
        row(out, column, &path_text(&hand_in.path), mark_word(hand_in.file_mark()), &file_text(hand_in))?;
        for trace in &hand_in.traces {
            row(out, column, &format!("  {}", name_text(&trace.name)), mark_word(trace.mark()), &trace_text(trace))?;
        }
    }
    let Count { accepted, refused, for_trace, unreadable } = count(class);
    let n = words::grouped;
    let traces = if for_trace > 0 { format!(" ({} for a trace only)", n(for_trace)) } else { String::new() };
    let all = words::some(class.len(), "hand-in");
    let summary = format!("{all}: {} accepted, {} refused{traces}, {} unreadable", n(accepted), n(refused), n(unreadable));
    out.text(if refused + unreadable > 0 { Style::Bad } else { Style::Good }, "", "  ", &summary)
}

/// A field by RFC 4180. A path that a spreadsheet would take for a formula is told from `./` on.
fn field(text: &str) -> String {
    let text = if text.starts_with(['=', '+', '-', '@']) { format!("./{text}") } else { text.to_string() };
    if text.contains([',', '"', '\n', '\r']) {
        format!("\"{}\"", text.replace('"', "\"\""))
    } else {
        text
    }
}

const COLUMNS: &str = "handin,verdict,number,first,second,entries,trace,plain,plain_frame,table,table_frame,parts_at,error";

fn answer_fields(answer: &Result<(), Refusal>) -> [String; 2] {
    match answer {
        Ok(()) => ["0".into(), String::new()],
        Err(refusal) => [refusal.number.to_string(), refusal.first.to_string()],
    }
}

fn csv_row(hand_in: &Marked, trace: Option<&Traced>) -> String {
    let empty = String::new;
    let [number, first, second, entries, error] = match &hand_in.file {
        Ok(Ok(entries)) => ["0".into(), "0".into(), "0".into(), entries.to_string(), empty()],
        Ok(Err((Refusal { number, first, second }, _))) => [number.to_string(), first.to_string(), second.to_string(), empty(), empty()],
        Err(why) => [empty(), empty(), empty(), empty(), why.clone()],
    };
    let name = trace.map_or_else(empty, |trace| name_text(&trace.name));
    let ([plain, plain_frame], [table, table_frame], trace_error) = match trace.map(|trace| &trace.answers) {
        Some(Ok((plain, table))) => (answer_fields(plain), answer_fields(table), empty()),
        Some(Err(why)) => ([empty(), empty()], [empty(), empty()], why.clone()),
        None => ([empty(), empty()], [empty(), empty()], empty()),
    };
    let parts = trace.and_then(Traced::parts_at).map_or_else(empty, |k| k.to_string());
    let error = if error.is_empty() { trace_error } else { error };
    let word = mark_word(hand_in.file_mark()).0.to_string();
    let path = path_text(&hand_in.path);
    let fields = [path, word, number, first, second, entries, name, plain, plain_frame, table, table_frame, parts, error];
    fields.map(|text| field(&text)).join(",")
}

pub fn csv(out: &mut Out, class: &[Marked]) -> io::Result<()> {
    write!(out.to, "{COLUMNS}\r\n")?;
    for hand_in in class {
        if hand_in.traces.is_empty() {
            write!(out.to, "{}\r\n", csv_row(hand_in, None))?;
        }
        for trace in &hand_in.traces {
            write!(out.to, "{}\r\n", csv_row(hand_in, Some(trace)))?;
        }
    }
    Ok(())
}

fn json_trace(trace: &Traced) -> String {
    let name = json::text(&trace.name.to_string_lossy());
    match &trace.answers {
        Ok((plain, table)) => {
            let parts = trace.parts_at().map_or_else(|| "null".into(), |k| k.to_string());
            format!("{{\"name\":{name},\"plain\":{},\"table\":{},\"parts_at\":{parts}}}", json::answer(plain), json::answer(table))
        }
        Err(why) => format!("{{\"name\":{name},\"error\":{}}}", json::text(why)),
    }
}

fn json_hand_in(hand_in: &Marked) -> String {
    let path = hand_in.path.to_string_lossy();
    let path = json::text(if path.is_empty() { "." } else { &path });
    let traces = json::list(hand_in.traces.iter().map(json_trace));
    match &hand_in.file {
        Ok(Ok(entries)) => format!("{{\"path\":{path},\"answer\":[0,0,0],\"entries\":{entries},\"traces\":{traces}}}"),
        Ok(Err((refusal, _))) => format!("{{\"path\":{path},\"answer\":{},\"traces\":[]}}", json::answer(&Err(*refusal))),
        Err(why) => format!("{{\"path\":{path},\"error\":{}}}", json::text(why)),
    }
}

pub fn json(out: &mut Out, class: &[Marked]) -> io::Result<()> {
    let Count { accepted, refused, for_trace: _, unreadable } = count(class);
    write!(out.to, "{{\"handins\":[")?;
    for (k, hand_in) in class.iter().enumerate() {
        write!(out.to, "{}{}", if k > 0 { "," } else { "" }, json_hand_in(hand_in))?;
    }
    writeln!(out.to, "],\"accepted\":{accepted},\"refused\":{refused},\"unreadable\":{unreadable}}}")
}
