//! What a tool reads: one object on one line, the same for the same input.
use crate::sheet::Sheet;
use crate::tries;
use damsonyet::{Both, Fate, Load, Notices, Place, Point, Record, Refusal};
use std::fmt::Display;
use std::io::{self, Write};

/// A text as JSON has it; what is not printable ASCII is escaped.
pub fn text(text: &str) -> String {
    let mut out = String::from("\"");
    for c in text.chars() {
        match c {
            '"' => out.push_str("\\\""),
            '\\' => out.push_str("\\\\"),
            ' '..='~' => out.push(c),
            _ => c.encode_utf16(&mut [0; 2]).iter().for_each(|unit| out.push_str(&format!("\\u{unit:04x}"))),
        }
    }
    out.push('"');
    out
}

/// A list of what is written as it is.
pub fn list<T: Display>(items: impl IntoIterator<Item = T>) -> String {
    format!("[{}]", items.into_iter().map(|item| item.to_string()).collect::<Vec<_>>().join(","))
}

/// An answer's number and places.
pub fn answer(result: &Result<(), Refusal>) -> String {
    match result {
        Ok(()) => list([0, 0, 0]),
        Err(Refusal { number, first, second }) => list([usize::from(*number), *first, *second]),
    }
}

fn places(places: &[Place; 16]) -> String {
    list(places.map(Place::byte))
}

/// A thread's turn, null where it does not wait.
fn turns(turn: impl Fn(u8) -> Option<u8>) -> String {
    list((0..16).map(|thread| turn(thread).map_or_else(|| "null".into(), |turn| turn.to_string())))
}

fn members(set: u16) -> String {
    list(damsonyet::members(set))
}

fn machine(run: &Result<Record, Refusal>) -> String {
    match run {
        Ok(record) => format!(
            "{{\"answer\":[0,0,0],\"values\":{},\"places\":{},\"turns\":{},\"notified\":{}}}",
            list(&record.values),
            places(&record.places),
            turns(|thread| record.turn(thread)),
            list(&record.notified)
        ),
        Err(refusal) => format!("{{\"answer\":{}}}", answer(&Err(*refusal))),
    }
}

fn notices(notices: &Notices) -> String {
    format!("{{\"notified\":{},\"told\":{}}}", members(notices.notified), members(notices.told))
}

fn point(point: &Point, vars: usize) -> String {
    format!(
        "{{\"values\":{},\"places\":{},\"turns\":{},\"guards\":{},\"plain\":{},\"table\":{}}}",
        list(&point.values[..vars.min(point.values.len())]),
        places(&point.places),
        turns(|thread| point.turn(thread)),
        members(point.guards),
        notices(&point.plain),
        point.table.as_ref().map_or_else(|| "null".into(), notices)
    )
}

/// What becomes of the tries, where it is told: the chosen ones as a number, and an object for each.
fn tried(file: &[u8]) -> String {
    let Ok((outline, _)) = damsonyet::outline(file) else { return String::new() };
    let sheet = Sheet::new(file, outline);
    let Some(tries) = tries::tries(&sheet) else { return String::new() };
    let chosen: u32 = tries::chosen(&tries).into_iter().map(|k| 1 << k).sum();
    let each = tries.iter().zip(&sheet.outline.tries).map(|(tried, span)| {
        let more = match tried.fate {
            Fate::Chosen => String::new(),
            Fate::FalseAtStart => format!(",\"values\":{}", list(sheet.start_values())),
            Fate::Broken { pass, region, state } => {
                let step = tried.step.as_ref().map_or_else(String::new, |step| {
                    format!(",\"values\":{},\"after\":{},\"values_after\":{}", list(&step.before.1), step.after.0, list(&step.after.1))
                });
                format!(",\"pass\":{pass},\"region\":{region},\"state\":{state}{step}")
            }
        };
        let (condition, fate) = (text(&tried.text), text(tries::word(&tried.fate)));
        format!("{{\"condition\":{condition},\"span\":{},\"fate\":{fate}{more}}}", list([span.start, span.end]))
    });
    format!(",\"chosen\":{chosen},\"tries\":{}", list(each))
}

/// The object of `check`.
pub fn check(to: &mut dyn Write, file: &[u8]) -> io::Result<()> {
    write!(to, "{{\"answer\":{}{}}}", answer(&damsonyet::check(file)), tried(file))
}

/// The object of `place`.
pub fn place(to: &mut dyn Write, file: &[u8]) -> io::Result<()> {
    match damsonyet::place(file) {
        Ok(table) => {
            let lines = table.text.split(|&byte| byte == b'\n').filter(|line| !line.is_empty());
            let lines = lines.map(|line| text(&String::from_utf8_lossy(line)));
            write!(to, "{{\"answer\":[0,0,0],\"table\":{},\"pairs\":{}{}}}", list(lines), table.pairs, tried(file))
        }
        Err(refusal) => write!(to, "{{\"answer\":{}{}}}", answer(&Err(refusal)), tried(file)),
    }
}

/// The object of `run`, from a state's number or the start values.
pub fn run(to: &mut dyn Write, file: &[u8], trace: &[u8], start: Option<usize>, points: bool) -> io::Result<()> {
    let both = match start {
        Some(start) => damsonyet::run_both(file, trace, start),
        None => damsonyet::run_both_from_start(file, trace),
    };
    let Both { plain, table } = match both {
        Ok(both) => both,
        Err(refusal) => return write!(to, "{{\"answer\":{}}}", answer(&Err(refusal))),
    };
    write!(to, "{{\"answer\":[0,0,0],\"plain\":{},\"table\":{}", machine(&plain), machine(&table))?;
    if points {
        write!(to, ",\"points\":[")?;
        let start = start.unwrap_or_else(|| damsonyet::start_state(file));
        let vars = damsonyet::outline(file).map_or(0, |(outline, _)| outline.variables.len());
        let points = damsonyet::points(file, trace, start).map(|points| points.points).unwrap_or_default();
        for (k, each) in points.iter().enumerate() {
            write!(to, "{}{}", if k > 0 { "," } else { "" }, point(each, vars))?;
        }
        write!(to, "]")?;
    }
    write!(to, "}}")
}

/// The object of `load`; with the run of what is made where that is wanted.
pub fn load(to: &mut dyn Write, file: &[u8], made: &Result<Load, Refusal>, with_run: bool) -> io::Result<()> {
    let load = match made {
        Ok(load) => load,
        Err(refusal) => return write!(to, "{{\"answer\":{}}}", answer(&Err(*refusal))),
    };
    write!(to, "{{\"answer\":[0,0,0],\"frames\":{},\"trace\":[", load.frames)?;
    for (k, line) in load.trace.split(|&byte| byte == b'\n').filter(|line| !line.is_empty()).enumerate() {
        write!(to, "{}{}", if k > 0 { "," } else { "" }, text(&String::from_utf8_lossy(line)))?;
    }
    write!(to, "]")?;
    if with_run {
        write!(to, ",\"run\":")?;
        run(to, file, &load.trace, None, false)?;
    }
    write!(to, "}}")
}

/// What a file has. Texts have their blanks collapsed.
fn outline(sheet: &Sheet) -> String {
    let o = &sheet.outline;
    let variables = o.variables.iter().enumerate().map(|(k, variable)| {
        let name = text(&sheet.variable_name(k));
        format!("{{\"name\":{name},\"start\":{},\"low\":{},\"high\":{}}}", variable.start, variable.low, variable.high)
    });
    let methods = o.methods.iter().enumerate().map(|(j, method)| {
        let name = text(&sheet.method_name(j));
        format!("{{\"name\":{name},\"regions\":{}}}", list(method.regions.clone()))
    });
    let regions = o.regions.iter().enumerate().map(|(r, region)| {
        let guard = text(&crate::sheet::collapsed(sheet.bytes(&region.guard)));
        format!("{{\"guard\":{guard},\"body\":{},\"guard_number\":{}}}", text(&sheet.body_text(r)), region.guard_number)
    });
    let tries = (0..o.tries.len()).map(|k| text(&sheet.try_text(k)));
    format!(
        "{{\"name\":{},\"keep\":{},\"tries\":{},\"variables\":{},\"methods\":{},\"regions\":{},\"guards\":{},\"states\":{},\"start\":{}}}",
        text(&sheet.title()),
        text(&sheet.keep_text()),
        list(tries),
        list(variables),
        list(methods),
        list(regions),
        o.guards,
        o.states,
        o.start
    )
}

/// The object of `show`: the verdict, the outline where there is one, what becomes of the tries, and what `place` and `run` say.
pub fn show(to: &mut dyn Write, file: &[u8], trace: Option<&[u8]>, start: Option<usize>, points: bool) -> io::Result<()> {
    let (verdict, o) = match damsonyet::outline(file) {
        Ok((outline, verdict)) => (verdict, Some(outline)),
        Err(refusal) => (Err(refusal), None),
    };
    write!(to, "{{\"answer\":{}", answer(&verdict))?;
    if let Some(o) = o {
        write!(to, ",\"outline\":{}{}", outline(&Sheet::new(file, o)), tried(file))?;
    }
    if verdict.is_ok() {
        write!(to, ",\"place\":")?;
        place(to, file)?;
        if let Some(trace) = trace {
            write!(to, ",\"run\":")?;
            run(to, file, trace, start, points)?;
        }
    }
    write!(to, "}}")
}
