//! The commands and their arguments.
use crate::args::{self, Given, Opt};
use crate::input::{self, name_text, Failed};
use crate::load::{self, Asked};
use crate::out::{columns, Colour, Out, Stream};
use crate::page;
use crate::sheet::Sheet;
use crate::text::{self, HandIn, Verdict};
use crate::{json, mark};
use damsonyet::Outline;
use std::ffi::{OsStr, OsString};
use std::io::{self, BufWriter, IsTerminal, Write};
use std::ops::RangeInclusive;
use std::path::Path;

/// How a command ends short of a verdict.
pub enum Stop {
    /// Wrong arguments.
    Usage(String),
    /// Something could not be read or written.
    Failed(Failed),
    /// Nobody reads what is written.
    Closed,
}

impl From<Failed> for Stop {
    fn from(failed: Failed) -> Stop {
        Stop::Failed(failed)
    }
}

/// An error of writing to standard output.
impl From<io::Error> for Stop {
    fn from(error: io::Error) -> Stop {
        match error.kind() {
            io::ErrorKind::BrokenPipe => Stop::Closed,
            _ => Stop::Failed(Failed::new("standard output", &error)),
        }
    }
}

const ACCEPTED: u8 = 0;
const REFUSED: u8 = 1;
const FAILED: u8 = 2;
/// As a shell tells of a program that a closed pipe has ended.
const CLOSED: u8 = 141;

const HELP: &str = "\
Shows monitor files, their wake-up tables and runs of
traces.

Usage: panel DIR
       panel COMMAND ..

Commands
  show FILE [TRACE]   the hand-in whole: file, table, run
  check FILE          the verdict; of a refusal the place
                      and what to do
  place FILE          the table in words and as a matrix
  run FILE TRACE      both machines frame by frame, and
                      where they part
  page FILE [TRACE] -o OUT.html
                      the hand-in as a page for a browser
  load FILE --seed S --threads N --frames K
                      a trace that is made: the same
                      wherever it is made
  mark DIR            every hand-in below a folder
  help COMMAND        more on a command

Options
  -h, --help          this text, or a command's
  -V, --version       the version

'panel DIR' shows the hand-in in a folder: DIR/monitor.txt
and, if it is there, DIR/trace.txt. As a file or a trace,
'-' is standard input.

Exit status: 0 accepted, 1 refused, 2 wrong arguments or a
file that cannot be read or written.
";

const SHOW: &str = "\
Shows a hand-in whole: variables, kept condition and tries,
guards and regions, how many pairs of these are touched, and
the table of a file; and the run of a trace on both
machines, frame by frame.

Usage: panel show FILE [TRACE] [OPTIONS]
       panel show DIR [OPTIONS]
       panel DIR [OPTIONS]

Of a folder, DIR/monitor.txt and, if it is there,
DIR/trace.txt are shown.

Options
  --start N           start in the state with this number
  --start NAME=VALUE,..
                      start there; variables that are not
                      named have their start values
  --frames A..B       tell frames A to B only
                      (also A.., ..B, A)
  --json              one object on one line, for tools
  --points            with --json: every point of the run
  --color WHEN        auto, always or never
  -h, --help          this text

Exit status: 0 both machines accept, 1 something is
refused, 2 an error.
";

const CHECK: &str = "\
Checks a monitor file. A refusal is told with its number,
line and column, the line itself, the reason and what to do;
of an accepted file, how many pairs of region and guard are
touched; of tries, how many are chosen.

Usage: panel check FILE [OPTIONS]

Options
  --json              one object on one line:
                      {\"answer\":[number,place,place]},
                      and what becomes of the tries
  --color WHEN        auto, always or never
  -h, --help          this text

Exit status: 0 accepted, 1 refused, 2 an error.
";

const PLACE: &str = "\
Places the wake-up table of a monitor file: a sentence an
entry, and a matrix of regions and guards. It says how many
pairs of these are touched, that is, the body assigns a
variable that the guard names (no other pair has an entry).
A signal goes to a guard's first waiter, the one that began
to wait earliest. Of tries it says which are chosen, and why
each other one is not.

Usage: panel place FILE [OPTIONS]

Options
  --json              one object on one line, the table's
                      lines in \"table\", how many pairs are
                      touched in \"pairs\", the tries in
                      \"chosen\" and \"tries\"
  --color WHEN        auto, always or never
  -h, --help          this text

Exit status: 0 accepted, 1 refused, 2 an error.
";

const RUN: &str = "\
Runs a trace on the plain machine and on the table's, frame
by frame: the values, who waits on each guard, who is
notified (+ where just told), where the machines part, and
what both answer. Who waits stands in order: the first is
the one that began to wait earliest, and goes on first.

Usage: panel run FILE TRACE [OPTIONS]

Options
  --start N           start in the state with this number
  --start NAME=VALUE,..
                      start there; variables that are not
                      named have their start values
  --frames A..B       tell frames A to B only
                      (also A.., ..B, A)
  --json              one object on one line, for tools
  --points            with --json: every point of the run
  --color WHEN        auto, always or never
  -h, --help          this text

Exit status: 0 both machines accept, 1 the file is refused
or a machine refuses the trace, 2 an error.
";

const PAGE: &str = "\
Writes a hand-in as a page for a browser: one file that
needs nothing else.

Usage: panel page FILE [TRACE] -o OUT.html [OPTIONS]
       panel page DIR -o OUT.html [OPTIONS]

Options
  -o, --output OUT.html
                      where to write; '-' is standard output
  --start N           start in the state with this number
  --start NAME=VALUE,..
                      start there; variables that are not
                      named have their start values
  -h, --help          this text

Exit status as of 'panel show'; the page is written in
either case.
";

const LOAD: &str = "\
Makes a trace: frames that the plain machine allows,
rechecks left out, drawn from a seed, from the start values.
The same file, seed and count of threads give the same bytes
wherever they are made, and a longer trace begins with the
shorter one. Both machines accept it. It ends short where
nobody can move any more but by a recheck: a standstill.

Usage: panel load FILE --seed S --threads N --frames K
                  [OPTIONS]

Options
  --seed S            0 to 4294967295, or 0x0 to 0xFFFFFFFF
  --threads N         how many threads, 1 to 16: they are
                      numbered from 00 on
  --frames K          how many frames are wanted
  -o, --output TRACE  where to write the trace; '-' is
                      standard output, as without -o
  --run               tell the run of the trace, as 'panel
                      run' does, in place of the trace
  --json              one object on one line: how many
                      \"frames\" there are, and the \"trace\";
                      with --run also the \"run\"
  --color WHEN        auto, always or never
  -h, --help          this text

How many frames there are, and where it stands still, is
told on standard error.

For a class: a load of the model's file, put beside each
monitor.txt as trace-load.txt, is run by 'panel mark' with
the other traces, and shows which hand-ins do otherwise.

Exit status: 0 made, also where it ends short; 1 refused;
2 an error.
";

const MARK: &str = "\
Marks a class: every folder below DIR with a monitor.txt is
a hand-in, with any number of traces (trace*.txt). Links to
folders are not followed.

Usage: panel mark DIR [OPTIONS]

Options
  --csv               rows with commas (RFC 4180), a row a
                      trace
  --json              one object on one line
  --color WHEN        auto, always or never
  -h, --help          this text

Exit status: 0 all are accepted, with all their traces;
1 some are refused; 2 something could not be read, or there
is no hand-in.
";

const fn opt(name: &'static str, value: bool) -> Opt {
    Opt { name, letter: None, value }
}

const H: Opt = Opt { name: "help", letter: Some(b'h'), value: false };
const JSON: Opt = opt("json", false);
const POINTS: Opt = opt("points", false);
const START: Opt = opt("start", true);
const FRAMES: Opt = opt("frames", true);
const COLOR: Opt = opt("color", true);
const OUTPUT: Opt = Opt { name: "output", letter: Some(b'o'), value: true };

struct Command {
    name: &'static str,
    help: &'static str,
    options: &'static [Opt],
    /// How many files it takes, at least and at most, and what they are.
    files: (usize, usize, &'static str),
    run: fn(&Given) -> Result<u8, Stop>,
}

const COMMANDS: [Command; 7] = [
    Command { name: "show", help: SHOW, options: &[H, JSON, POINTS, START, FRAMES, COLOR], files: (1, 2, "FILE [TRACE]"), run: show },
    Command { name: "check", help: CHECK, options: &[H, JSON, COLOR], files: (1, 1, "FILE"), run: check },
    Command { name: "place", help: PLACE, options: &[H, JSON, COLOR], files: (1, 1, "FILE"), run: place },
    Command { name: "run", help: RUN, options: &[H, JSON, POINTS, START, FRAMES, COLOR], files: (2, 2, "FILE TRACE"), run },
    Command { name: "page", help: PAGE, options: &[H, START, OUTPUT], files: (1, 2, "FILE [TRACE]"), run: page },
    Command {
        name: "load",
        help: LOAD,
        options: &[H, opt("seed", true), opt("threads", true), FRAMES, OUTPUT, opt("run", false), JSON, COLOR],
        files: (1, 1, "FILE --seed S --threads N --frames K"),
        run: load,
    },
    Command { name: "mark", help: MARK, options: &[H, opt("csv", false), JSON, COLOR], files: (1, 1, "DIR"), run: mark_class },
];

/// Runs what the arguments say; returned is the exit status.
pub fn main(arguments: &[OsString]) -> u8 {
    let (name, result) = dispatch(arguments);
    let hint = if name.is_empty() { "panel --help".to_string() } else { format!("panel {name} --help") };
    match result {
        Ok(status) => status,
        Err(Stop::Usage(what)) => {
            complain(&format!("panel: {what}\nsee '{hint}'"));
            FAILED
        }
        Err(Stop::Failed(Failed { what, why })) => {
            complain(&format!("panel: {what}: {why}"));
            FAILED
        }
        Err(Stop::Closed) => CLOSED,
    }
}

/// A message on standard error; where that cannot be written there is nobody to tell.
fn complain(text: &str) {
    let _ = writeln!(io::stderr(), "{text}");
}

/// The command's name, for the hint, and what it ends with.
fn dispatch(arguments: &[OsString]) -> (&'static str, Result<u8, Stop>) {
    let Some(first) = arguments.first() else {
        return ("", printed(HELP).map(|_| FAILED));
    };
    if let Some(command) = COMMANDS.iter().find(|command| first == command.name) {
        return (command.name, call(command, &arguments[1..]));
    }
    match first.to_str() {
        Some("help") => return ("", help(&arguments[1..])),
        Some("-h" | "--help") => return ("", printed(HELP)),
        Some("-V" | "--version") => return ("", printed(&format!("panel {}\n", env!("CARGO_PKG_VERSION")))),
        _ => {}
    }
    // A folder among the arguments, wherever the options stand.
    let given = args::parse(arguments, COMMANDS[0].options);
    match given {
        Ok(given) if given.has("help") => ("", printed(HELP)),
        Ok(given) => match given.positional.first() {
            Some(folder) if Path::new(folder).is_dir() => ("show", call(&COMMANDS[0], arguments)),
            Some(word) => ("", Err(Stop::Usage(no_command(word)))),
            None => ("", Err(Stop::Usage("a command or a folder is missing".into()))),
        },
        Err(what) => ("", Err(Stop::Usage(what))),
    }
}

fn no_command(word: &OsStr) -> String {
    let text = name_text(word);
    if Path::new(word).is_file() {
        return format!("'{text}' is a file and no command; did you mean 'panel show {text}'?");
    }
    let near = args::nearest(&text, COMMANDS.iter().map(|command| command.name).chain(["help"]));
    let hint = near.map_or_else(String::new, |near| format!("; did you mean '{near}'?"));
    format!("'{text}' is no command and no folder{hint}")
}

fn help(arguments: &[OsString]) -> Result<u8, Stop> {
    match arguments {
        [] => printed(HELP),
        [word, ..] => match COMMANDS.iter().find(|command| word == command.name) {
            Some(command) => printed(command.help),
            None => Err(Stop::Usage(no_command(word))),
        },
    }
}

fn printed(text: &str) -> Result<u8, Stop> {
    let mut out = io::stdout().lock();
    out.write_all(text.as_bytes())?;
    out.flush()?;
    Ok(ACCEPTED)
}

fn call(command: &Command, arguments: &[OsString]) -> Result<u8, Stop> {
    let given = args::parse(arguments, command.options).map_err(Stop::Usage)?;
    if given.has("help") {
        return printed(command.help);
    }
    let (least, most, what) = command.files;
    let n = given.positional.len();
    if n < least {
        return Err(Stop::Usage(format!("an argument is missing: panel {} {what}", command.name)));
    }
    if n > most {
        return Err(Stop::Usage(format!(
            "'{}' is an argument too many: panel {} {what}",
            name_text(&given.positional[most]),
            command.name
        )));
    }
    if given.positional.iter().filter(|argument| *argument == "-").count() > 1 {
        return Err(Stop::Usage("standard input cannot be both file and trace".into()));
    }
    if given.has("points") && !given.has("json") {
        return Err(Stop::Usage("'--points' goes with '--json'".into()));
    }
    if given.has("frames") && given.has("json") && command.name != "load" {
        return Err(Stop::Usage("'--frames' does not go with '--json'".into()));
    }
    (command.run)(&given)
}

fn colour(given: &Given, terminal: bool) -> Result<bool, Stop> {
    let when = match given.value("color").map(|value| value.to_str()) {
        None | Some(Some("auto")) => Colour::Auto,
        Some(Some("always")) => Colour::Always,
        Some(Some("never")) => Colour::Never,
        Some(_) => return Err(Stop::Usage("'--color' is auto, always or never".into())),
    };
    Ok(when.is_on(terminal))
}

/// Lets a command write to standard output, and sees to it that all is written.
fn writing<T>(given: &Given, write: impl FnOnce(&mut Out) -> Result<T, Stop>) -> Result<T, Stop> {
    let colour = colour(given, io::stdout().is_terminal())?;
    let mut to = BufWriter::with_capacity(1 << 16, io::stdout().lock());
    let done = write(&mut Out { to: &mut to, width: columns(Stream::Output), colour })?;
    to.flush()?;
    Ok(done)
}

fn status(verdict: Verdict) -> u8 {
    match verdict {
        Verdict::Accepted => ACCEPTED,
        Verdict::Refused => REFUSED,
    }
}

fn check(given: &Given) -> Result<u8, Stop> {
    let name = &given.positional[0];
    let file = input::monitor(name)?;
    writing(given, |out| {
        if given.has("json") {
            json::check(out.to, &file)?;
            out.blank()?;
            return Ok(status(Verdict::of(&damsonyet::check(&file))));
        }
        Ok(status(text::check(out, &input::told(name), &file)?))
    })
}

fn place(given: &Given) -> Result<u8, Stop> {
    let name = &given.positional[0];
    let file = input::monitor(name)?;
    writing(given, |out| {
        if given.has("json") {
            json::place(out.to, &file)?;
            out.blank()?;
            return Ok(status(Verdict::of(&damsonyet::check(&file))));
        }
        Ok(status(text::place(out, &input::told(name), &file)?))
    })
}

/// The whole hand-in that the arguments name.
struct Read {
    /// The paths that are read.
    paths: Vec<OsString>,
    file: Vec<u8>,
    file_name: String,
    trace: Option<(Vec<u8>, String)>,
    start: Option<usize>,
    frames: Option<RangeInclusive<usize>>,
}

impl Read {
    fn hand_in(&self) -> HandIn<'_> {
        HandIn {
            file: &self.file,
            file_name: &self.file_name,
            trace: self.trace.as_ref().map(|(trace, name)| (&trace[..], &name[..])),
            start: self.start,
            frames: self.frames.clone(),
        }
    }

    fn trace(&self) -> Option<&[u8]> {
        self.trace.as_ref().map(|(trace, _)| &trace[..])
    }

    /// Whether the file is accepted, and the trace by both machines.
    fn verdict(&self) -> Verdict {
        let Some(trace) = self.trace() else { return Verdict::of(&damsonyet::check(&self.file)) };
        let both = match self.start {
            Some(start) => damsonyet::run_both(&self.file, trace, start),
            None => damsonyet::run_both_from_start(&self.file, trace),
        };
        match both {
            Ok(both) if both.plain.is_ok() && both.table.is_ok() => Verdict::Accepted,
            _ => Verdict::Refused,
        }
    }
}

/// A start state by its number or by values of variables; none where the file is refused, whose refusal comes first.
fn start(file: &[u8], text: &OsStr) -> Result<Option<usize>, Stop> {
    let shown = name_text(text);
    let wrong = || Stop::Usage(format!("'--start {shown}': a state's number, or NAME=VALUE,.. of variables"));
    let text = text.to_str().ok_or_else(wrong)?;
    if !text.contains('=') {
        return text.parse().map(Some).map_err(|_| wrong());
    }
    let Ok((outline, Ok(()))) = damsonyet::outline(file) else { return Ok(None) };
    let mut values: Vec<i16> = outline.variables.iter().map(|variable| variable.start).collect();
    let sheet = Sheet::new(file, outline);
    for part in text.split(',') {
        let (name, value) = part.split_once('=').ok_or_else(wrong)?;
        let k = variable(&sheet, name.trim()).ok_or_else(|| {
            let names: Vec<String> = (0..values.len()).map(|k| sheet.variable_name(k)).collect();
            Stop::Usage(format!("'--start': no variable '{}'; there are {}", name_text(OsStr::new(name.trim())), names.join(", ")))
        })?;
        values[k] = value.trim().parse().map_err(|_| wrong())?;
    }
    match damsonyet::number_of(file, &values) {
        Ok(Some(number)) => Ok(Some(number)),
        _ => Err(Stop::Usage(format!("'--start': {} is no state; {}", sheet.state_text(&values), ranges(&sheet.outline, &sheet)))),
    }
}

fn variable(sheet: &Sheet, name: &str) -> Option<usize> {
    (0..sheet.outline.variables.len()).find(|&k| sheet.variable_name(k) == name)
}

fn ranges(outline: &Outline, sheet: &Sheet) -> String {
    let each = |(k, v): (usize, &damsonyet::Variable)| format!("{} is in {}..{}", sheet.variable_name(k), v.low, v.high);
    outline.variables.iter().enumerate().map(each).collect::<Vec<_>>().join(", ")
}

/// `A..B`, both included, as ranges are written in monitor files; `A..`, `..B`, `A`.
fn frame_range(text: &OsStr) -> Result<RangeInclusive<usize>, Stop> {
    let wrong = || Stop::Usage(format!("'--frames {}': two frames as A..B, or A.., ..B, A", name_text(text)));
    let text = text.to_str().ok_or_else(wrong)?;
    let number = |part: &str, missing: usize| if part.is_empty() { Ok(missing) } else { part.parse().map_err(|_| wrong()) };
    let (first, last) = match text.split_once("..") {
        Some((first, last)) => (number(first, 0)?, number(last, usize::MAX)?),
        None => {
            let one = text.parse().map_err(|_| wrong())?;
            (one, one)
        }
    };
    if first > last {
        Err(wrong())
    } else {
        Ok(first..=last)
    }
}

/// Reads what `show`, `run` and `page` take. `show` also takes a folder.
fn read(given: &Given, folder: bool) -> Result<Read, Stop> {
    let first = &given.positional[0];
    let (file_at, trace_at) = if folder && first != "-" && Path::new(first).is_dir() {
        if let Some(more) = given.positional.get(1) {
            return Err(Stop::Usage(format!("'{}' is an argument too many: {} is a folder", name_text(more), name_text(first))));
        }
        let trace = Path::new(first).join("trace.txt");
        let there = trace.symlink_metadata().is_ok();
        (Path::new(first).join("monitor.txt").into_os_string(), there.then(|| trace.into_os_string()))
    } else {
        (first.clone(), given.positional.get(1).cloned())
    };
    let frames = given.value("frames").map(frame_range).transpose()?;
    let file = input::monitor(&file_at)?;
    let trace = match &trace_at {
        Some(at) => Some((input::trace(at)?, input::told(at))),
        None => None,
    };
    let start = match given.value("start") {
        Some(text) => start(&file, text)?,
        None => None,
    };
    let file_name = input::told(&file_at);
    Ok(Read { paths: [file_at].into_iter().chain(trace_at).collect(), file, file_name, trace, start, frames })
}

fn run(given: &Given) -> Result<u8, Stop> {
    let read = read(given, false)?;
    writing(given, |out| {
        if given.has("json") {
            json::run(out.to, &read.file, read.trace().unwrap_or_default(), read.start, given.has("points"))?;
            out.blank()?;
            return Ok(status(read.verdict()));
        }
        Ok(status(text::run(out, &read.hand_in())?))
    })
}

fn show(given: &Given) -> Result<u8, Stop> {
    let read = read(given, true)?;
    writing(given, |out| {
        if given.has("json") {
            json::show(out.to, &read.file, read.trace(), read.start, given.has("points"))?;
            out.blank()?;
            return Ok(status(read.verdict()));
        }
        Ok(status(text::show(out, &read.hand_in())?))
    })
}

fn page(given: &Given) -> Result<u8, Stop> {
    let to = given.value("output").ok_or_else(|| Stop::Usage("'-o OUT.html' is missing ('-o -' is standard output)".into()))?;
    let read = read(given, true)?;
    not_read(to, &read.paths)?;
    let hand_in = read.hand_in();
    let input = page::Input { file: hand_in.file, file_name: hand_in.file_name, trace: hand_in.trace, start: hand_in.start };
    written(to, page::page(&input).as_bytes())?;
    Ok(status(read.verdict()))
}

/// What is read is not written over.
fn not_read(to: &OsStr, paths: &[OsString]) -> Result<(), Stop> {
    let real = |path: &OsStr| std::fs::canonicalize(path).ok();
    let same = |path: &OsStr| path != "-" && real(path).is_some() && real(path) == real(to);
    if to != "-" && paths.iter().any(|path| same(path)) {
        return Err(Stop::Usage(format!("'{}' is read and would be written over", name_text(to))));
    }
    Ok(())
}

/// Writes bytes to a file, or to standard output.
fn written(to: &OsStr, bytes: &[u8]) -> Result<(), Stop> {
    if to == "-" {
        let mut out = io::stdout().lock();
        out.write_all(bytes)?;
        out.flush()?;
    } else {
        std::fs::write(to, bytes).map_err(|error| Failed::new(name_text(to), &error))?;
    }
    Ok(())
}

fn load(given: &Given) -> Result<u8, Stop> {
    let asked = Asked::of(given).map_err(Stop::Usage)?;
    let (output, run) = (given.value("output"), given.has("run"));
    if given.has("json") && output.is_some() {
        return Err(Stop::Usage("'--output' does not go with '--json', whose object has the trace".into()));
    }
    if run && output.is_some_and(|to| to == "-") {
        return Err(Stop::Usage("'--run' and '-o -' would both write to standard output".into()));
    }
    let words_coloured = colour(given, io::stderr().is_terminal())?;
    let name = &given.positional[0];
    let file = input::monitor(name)?;
    if let Some(to) = output {
        not_read(to, std::slice::from_ref(name))?;
    }
    let made = asked.made(&file);
    if made.as_ref().is_err_and(|refusal| refusal.number == 10) {
        let why = "there is no memory for so many frames, seven bytes each".into();
        return Err(Stop::Failed(Failed { what: format!("'--frames {}'", asked.wanted), why }));
    }
    if given.has("json") {
        return writing(given, |out| {
            json::load(out.to, &file, &made, run)?;
            out.blank()?;
            Ok(status(Verdict::of(&made)))
        });
    }
    // Where the words cannot be written there is nobody to tell.
    let mut to = io::stderr();
    let mut said = Out { to: &mut to, width: columns(Stream::Error), colour: words_coloured };
    let file_name = &input::told(name)[..];
    let made = match made {
        Ok(made) => made,
        Err(refusal) => {
            let _ = load::refused(&mut said, file_name, &file, &asked, &refusal);
            return Ok(REFUSED);
        }
    };
    let mut verdict = Verdict::Accepted;
    if output.is_some() || !run {
        written(output.unwrap_or(OsStr::new("-")), &made.trace)?;
    }
    if run {
        let trace_name = output.map_or_else(|| format!("load ({})", asked.name()), name_text);
        let hand_in = HandIn { file: &file, file_name, trace: Some((&made.trace, &trace_name)), start: None, frames: None };
        verdict = writing(given, |out| Ok(text::run(out, &hand_in)?))?;
    }
    let _ = load::told(&mut said, &file, &asked, &made);
    if let Some(to) = output.filter(|to| *to != "-" && !run) {
        let _ = load::how_to_run(&mut said, name, to);
    }
    Ok(status(verdict))
}

fn mark_class(given: &Given) -> Result<u8, Stop> {
    if given.has("csv") && given.has("json") {
        return Err(Stop::Usage("'--csv' does not go with '--json'".into()));
    }
    let folder = &given.positional[0];
    let class = mark::mark(Path::new(folder)).map_err(|error| Failed::new(name_text(folder), &error))?;
    if class.is_empty() {
        return Err(Stop::Failed(Failed { what: name_text(folder), why: "no folder here has a monitor.txt".into() }));
    }
    writing(given, |out| {
        if given.has("json") {
            mark::json(out, &class)?;
        } else if given.has("csv") {
            mark::csv(out, &class)?;
        } else {
            mark::text(out, &class)?;
        }
        Ok(())
    })?;
    let count = mark::count(&class);
    Ok(if count.unreadable > 0 {
        FAILED
    } else if count.refused > 0 {
        REFUSED
    } else {
        ACCEPTED
    })
}
